tr '\0' 0 < /dev/zero
