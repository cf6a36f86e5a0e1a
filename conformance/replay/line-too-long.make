# The third line isn't JSON either, but it is too long first.
cat <<'END'
{"nodes":[{"path":"s","spawner":{"under":"s","scenes":["p"]}}],"scenes":[{"name":"p","props":[["v",0]],"methods":[],"syncs":[{"props":[["v","change",true]]}]}]}
END
echo '["connect"]'
head -c 33554433 /dev/zero | tr '\0' x
echo
echo '["connect"]'
