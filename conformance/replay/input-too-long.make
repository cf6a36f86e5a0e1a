# Behind the scene line come lines of 33,554,432 bytes, their line feeds counted: the 32nd doesn't end within
# the first 1,073,741,824 bytes of the input. What stands behind these is no event, and isn't judged.
cat <<'END'
{"nodes":[{"path":"s","spawner":{"under":"s","scenes":["p"]}}],"scenes":[{"name":"p","props":[["v",0]],"methods":[],"syncs":[{"props":[["v","change",true]]}]}]}
END
for _ in $(seq 32); do
    printf '["report",2]'
    head -c 33554419 /dev/zero | tr '\0' ' '
    echo
done
echo '["jump"]'
