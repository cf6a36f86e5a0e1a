# A text of 65,528 bytes has a binary form of 65,536, and one of 65,529 is too long.
cat <<'END'
{"nodes":[{"path":"s","spawner":{"under":"s","scenes":["p"]}}],"scenes":[{"name":"p","props":[["v",0]],"methods":[],"syncs":[{"props":[["v","change",true]]}]}]}
END
printf '%s' '["op",1,["spawn","s","p","a",[["v","'; head -c 65529 /dev/zero | tr '\0' x; printf '%s\n' '"],["w",0]]]]'
printf '%s' '["op",1,["spawn","s","p","a",[["w","'; head -c 65529 /dev/zero | tr '\0' x; printf '%s\n' '"],["v",0]]]]'
printf '%s' '["op",1,["spawn","s","p","a",[["w",0],["v","'; head -c 65529 /dev/zero | tr '\0' x; printf '%s\n' '"]]]]'
printf '%s' '["op",1,["spawn","s","p","a",[["v","'; head -c 65528 /dev/zero | tr '\0' x; printf '%s\n' '"]]]]'
