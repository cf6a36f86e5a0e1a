# One scene more than is allowed.
awk 'BEGIN { printf "{\"nodes\":[],\"scenes\":["; for (i = 0; i < 4097; i++) printf "%s{\"name\":\"p%d\",\"props\":[],\"methods\":[],\"syncs\":[]}", (i ? "," : ""), i; print "]}" }'
echo '["connect"]'
