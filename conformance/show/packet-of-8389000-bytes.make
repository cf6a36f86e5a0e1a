head -c 16778000 /dev/zero | tr '\0' 0
echo
