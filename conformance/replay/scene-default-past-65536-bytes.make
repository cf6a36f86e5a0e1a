# A text of 65,529 bytes has a binary form of 65,540.
printf '%s' '{"nodes":[{"path":"a","props":[["v","'; head -c 65529 /dev/zero | tr '\0' x; printf '%s\n' '"]]}],"scenes":[]}'
echo '["connect"]'
