# Scene A, and then one line without an end.
cat <<'END'
{"nodes":[{"path":"s","spawner":{"under":"s","scenes":["p"]}}],"scenes":[{"name":"p","props":[["v",0]],"methods":[],"syncs":[{"props":[["v","change",true]]}]}]}
END
yes connect | tr -d '\n'
