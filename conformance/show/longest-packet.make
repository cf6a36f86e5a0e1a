# 8,388,608 zero bytes, and one more
head -c 16777216 /dev/zero | tr '\0' 0
echo
head -c 16777218 /dev/zero | tr '\0' 0
echo
