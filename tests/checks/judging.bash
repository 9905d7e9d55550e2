# For scripts that judge commands in a folder for the moment, `room`: what a command said is kept in the file `said` there.
passed=0
failed=0

# Counts a name with the status of the test before.
judge() {
  if [ "$2" -eq 0 ]; then
    passed=$((passed + 1))
  else
    failed=$((failed + 1))
    echo "$1"
    [ ! -s "$room/said" ] || sed 's/^/    /' "$room/said"
  fi
}

# Prints the last line, and answers the script's own status.
end() {
  echo "$passed passed, $failed failed"
  [ "$failed" -eq 0 ]
}
