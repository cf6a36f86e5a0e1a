# A text of 65,528 bytes has a binary form of 65,536.
printf '%s' '{"nodes":[{"path":"a","props":[["v","'; head -c 65528 /dev/zero | tr '\0' x; printf '%s\n' '"]]}],"scenes":[]}'
echo '["connect"]'
