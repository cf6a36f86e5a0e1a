# 4,096 scenes are allowed.
awk 'BEGIN { printf "{\"nodes\":[],\"scenes\":["; for (i = 0; i < 4096; i++) printf "%s{\"name\":\"p%d\",\"props\":[],\"methods\":[],\"syncs\":[]}", (i ? "," : ""), i; print "]}" }'
echo '["connect"]'
