# A connect with spaces behind it: 33,554,432 bytes.
cat <<'END'
{"nodes":[{"path":"s","spawner":{"under":"s","scenes":["p"]}}],"scenes":[{"name":"p","props":[["v",0]],"methods":[],"syncs":[{"props":[["v","change",true]]}]}]}
END
printf '["connect"]'
head -c 33554421 /dev/zero | tr '\0' ' '
echo
echo '["connect"]'
