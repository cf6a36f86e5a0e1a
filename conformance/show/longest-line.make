head -c 33554432 /dev/zero | tr '\0' 0
echo
echo 0501000000
