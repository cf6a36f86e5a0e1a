# 64 clients, one more, and a spawn that goes to each of the 64.
cat <<'END'
{"nodes":[{"path":"s","spawner":{"under":"s","scenes":["p"]}}],"scenes":[{"name":"p","props":[["v",0]],"methods":[],"syncs":[{"props":[["v","change",true]]}]}]}
END
for _ in $(seq 65); do echo '["connect"]'; done
cat <<'END'
["op",1,["spawn","s","p","p1",[["v",5]]]]
["report",1]
["rel",1,65]
["rel",1,66]
["report",65]
["report",64]
END
