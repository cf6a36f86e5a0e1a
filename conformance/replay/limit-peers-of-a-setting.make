# A synchronizer is set for 4,096 peers. One more is too many, but a peer that was set may be set again, and a node
# that was spawned again begins anew.
echo '{"nodes":[{"path":"s","spawner":{"under":"s","scenes":["p"]}}],"scenes":[{"name":"p","props":[["v",0]],"methods":[],"syncs":[{"props":[["v","change",true]]}]}]}'
echo '["op",1,["spawn","s","p","p1",[]]]'
for i in $(seq 2 4097); do echo "[\"op\",1,[\"for\",[\"s/p1\",0],$i,true]]"; done
echo '["op",1,["for",["s/p1",0],4098,true]]'
echo '["op",1,["for",["s/p1",0],2,false]]'
echo '["op",1,["public",["s/p1",0],false]]'
echo '["op",1,["for",["s/p1",0],4098,false]]'
echo '["op",1,["despawn","s/p1"]]'
echo '["op",1,["spawn","s","p","p1",[]]]'
echo '["op",1,["for",["s/p1",0],4098,true]]'
