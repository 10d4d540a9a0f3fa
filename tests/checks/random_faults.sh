says="faulty scripts against the second reading"
needs="python3 $oracle/checks/agree"

check() {
    python3 tests/scripts_agree.py "${flags[@]}" --to 300 --program "$program" --keep "$temp/faulty" --faults
}
