# It isn't hexadecimal either, but it is too long first.
echo 0501000000
head -c 33554433 /dev/zero | tr '\0' g
echo
echo 0502000000
