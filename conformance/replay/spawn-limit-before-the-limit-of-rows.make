# A limit of 4,096 nodes, which is as many rows as an authority may have.
cat <<'END'
{"nodes":[{"path":"s","spawner":{"under":"s","scenes":["p"],"limit":4096}}],"scenes":[{"name":"p","props":[["v",0]],"methods":[],"syncs":[{"props":[["v","change",true]]}]}]}
END
for i in $(seq 4097); do echo '["op",1,["spawn","s","p","n'$i'",[]]]'; done
