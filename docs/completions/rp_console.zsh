#compdef rp_console
# Made by tools/words. Copy it to a folder of $fpath as _rp_console.
_rp_console() {
    local -a commands=('script:Reads a deck from standard input and runs its script' 'live:Reads a deck from standard input and runs its nodes and tasks as threads' 'chart:Reads a deck from standard input, runs its script and prints a drawing of what happens' 'explore:Reads a deck from standard input and explores every order of what its script asks for' 'bind:Reads a deck from standard input and prints its objects as packages of Ada or as a header of C')
    local state line
    _arguments -C '-h[Print help]' \
                '--help[Print help]' \
                '-V[Print version]' \
                '--version[Print version]' \
                '1: :->command' '*:: :->rest'
    case $state in
        command) _describe command commands ;;
        rest) case $line[1] in
            script) _arguments '--trace[Prints each packet that is sent]' \
                '-h[Print help]' \
                '--help[Print help]' ;;
            live) _arguments '--seed[Seed that determines which packets are lost, duplicated and reordered, 0 to 4294967295 (default: 0)]:S:' \
                '--turns[At most how many turns each node and each task makes, 1 to 1000000 (default: 10000)]:T:' \
                '-h[Print help]' \
                '--help[Print help]' ;;
            chart) _arguments '--position[Draws only what names this position, 1 to 65535]:P:' \
                '--hide-self[Draws no arrow from a node to itself]' \
                '--from[Draws only the moments from number N on, 1 to 4294967295]:N:' \
                '--to[Draws only the moments up to number N, 1 to 4294967295]:N:' \
                '--html[Prints a page with the drawing and the state after each moment]' \
                '-h[Print help]' \
                '--help[Print help]' ;;
            explore) _arguments '--states[At most how many states are found, 1 to 10000000 (default: 1000000)]:S:' \
                '--deck[Prints a deck for script that shows outcome N, 1 to 4294967295]:N:' \
                '-h[Print help]' \
                '--help[Print help]' ;;
            bind) _arguments '--ada[Prints packages of Ada, as without an option]' \
                '--local[Prints the body of the package whose objects are on this machine alone]' \
                '--c[Prints a header of C]' \
                '-h[Print help]' \
                '--help[Print help]' ;;
        esac ;;
    esac
}
_rp_console "$@"
