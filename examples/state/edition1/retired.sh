#!/usr/bin/env bash
# Writes the session of retired.edition1: slot 1 is freed at generation 65535 and never used again, slot 2 is live there.
echo 'start 3 5 6'
for ((each = 1; each <= 65535; each++)); do
  echo "create 1 9 0 0"
  echo "delete 1 $((each * 65536 + 1))"
done
for ((each = 1; each < 65535; each++)); do
  echo "create 1 9 0 0"
  echo "delete 1 $((each * 65536 + 2))"
done
echo "create 1 9 4294967295 4"
echo "create 2 10 0 20"
echo "obtain 1 65539 0 0"
