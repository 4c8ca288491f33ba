# Counts what went well and what did not. The tests read it; it is none itself.
good=0
bad=0

# What else is to be printed where something did not go well; a test may say.
detail() { :; }

count() { # STATUS WORDS
    if [ "$1" -eq 0 ]; then
        good=$((good + 1))
    else
        bad=$((bad + 1))
        echo "FAIL $2"
        detail
    fi
}
