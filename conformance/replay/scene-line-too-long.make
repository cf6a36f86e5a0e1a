# 33,554,433 spaces.
head -c 33554433 /dev/zero | tr '\0' ' '
echo
