# For sourcing: counts what passed and failed, and says it in the last line.
passed=0
failed=0
# What the line before the last says, if anything.
remark=''

note() { # note STATUS NAME
    if [ "$1" -eq 0 ]; then passed=$((passed + 1)); else failed=$((failed + 1)); echo "FAILED: $2"; fi
}

# Ends the script.
verdict() {
    [ -z "$remark" ] || echo "$remark"
    echo "$passed passed, $failed failed"
    [ "$failed" -eq 0 ]
    exit
}
