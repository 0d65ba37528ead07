build/greet | grep -q hello
