f() { echo "$1" 'a b' plain; }
f some words
