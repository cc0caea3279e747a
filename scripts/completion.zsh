#compdef console rudekpi
# Completes the words, flags and files of `console` and `rudekpi` in zsh: put it into a folder of $fpath as _rudekpi, or
# `. scripts/completion.zsh` behind compinit. Made by scripts/completions.

_rudekpi() {
    local curcontext=$curcontext state line
    local -a found
    found=(
        'run:reads a script and writes its transcript'
        'audit:judges a transcript'
        'picture:draws a network for Graphviz'
        'epochs:lists the epochs of a transcript'
        'storm:plays scripts at once'
        'help:tells of a command'
    )
    [[ ${service:-$words[1]} != *rudekpi ]] || found+=(
        'sweep:plays networks by the thousand and writes a CSV row for each'
        'compare:prints a table of the moves under both rule sets, with the bound'
        'worst:writes the longest schedule of a network as a script'
        'check:explains which lines of a script are no commands, and why'
        'shell:plays a network line by line, and explains typing errors'
        'json:writes a transcript as JSON Lines, an object for each entry'
        'conform:judges whether the rules allow the moves in the log of your own nodes'
        'explain:explains why audit refuses a transcript'
        'bursts:lists moves and summed costs from silence to silence, as CSV'
        'again:plays a row of a sweep again, and writes its transcript'
        'page:a page that plays a transcript in a browser'
    )
    _arguments -C '1: :->command' '*:: :->rest' '(- *)--help[tells of all commands]' '(- *)--version[tells the version]'
    case $state in
        command) _describe command found ;;
        rest) _rudekpi_rest "$words[1]" ;;
    esac
}

# By the flags and files of a command.
_rudekpi_rest() {
    case ${service:-console},$1 in
        *,help) _describe command found ;;
        rudekpi,picture) _arguments '--entry[after which entry]:number: ' '--output[a file]:file:_files' '--names[a file of the nodes names, of which line K is that of node K]:file:_files' '--program[the program that draws]:file:_files' '--help[tells of the command]' '*:file:_files' ;;
        *,run) _arguments '--rules[the rules]:word:(hh manne)' '--nodes[how many nodes there are]:number: ' '--present[how many of them are present at the start]:number: ' '--workers[the most workers that judge a step]:number: ' '--from[the file of a run to go on with]:file:_files' '--help[tells of the command]' '*:file:_files' ;;
        *,audit) _arguments '--help[tells of the command]' '*:file:_files' ;;
        *,picture) _arguments '--entry[behind which entry]:number: ' '--help[tells of the command]' '*:file:_files' ;;
        *,epochs) _arguments '--help[tells of the command]' '*:file:_files' ;;
        *,storm) _arguments '--rules[the rules]:word:(hh manne)' '--nodes[how many nodes there are]:number: ' '--present[how many of them are present at the start]:number: ' '--workers[the most workers that judge a step]:number: ' '--from[the file of a run to go on with]:file:_files' '--roam[how many workers roam]:number: ' '--turns[how many turns each of them has]:number: ' '--help[tells of the command]' '*:file:_files' ;;
        *,sweep) _arguments '--graph[a file]:file:_files' '--undirected[takes a directed graph of a file without its directions]' '--rules[hh, manne or hh,manne]:word:(hh manne)' '--daemon[some of synchronous,least,greatest,age,seeded,greedy,helpful,local,probabilityP]:word:(synchronous least greatest age seeded greedy helpful local)' '--seeds[how many seeds]:number: ' '--first-seed[the first seed]:number: ' '--faults[how many faults hit the silent network, as 10,50]:number: ' '--registers[which registers the faults write]:word:(any pointer flag)' '--any-value[faults write any value, also the one that is held]' '--joins[how many nodes join, with their edges]:number: ' '--leaves[how many nodes leave]:number: ' '--cut[how many links are cut]:number: ' '--add[how many links are added]:number: ' '--rewire[how many links are moved at one end]:number: ' '--move[how far each node of a disk graph walks]:number: ' '--every[how many moves come between two disturbances]:number: ' '--trace[a file of links and nodes that come and go at times, as CSV or JSON Lines]:file:_files' '--racks[a file of groups of nodes]:file:_files' '--csv[a file for the rows, written one by one]:file:_files' '--resume[makes only the rows that the file of --csv lacks]' '--force[begins the file of --csv anew if it is there]' '--maximum[adds a column with the size of a maximum matching]' '--partners[adds columns pairs broken and remade, nodes without a partner]' '--plot[a file for a plot, .svg, .png or .pdf]:file:_files' '--plotted[what it draws]:word:(moves rounds)' '--processes[how many processes]:number: ' '--dask[a Dask scheduler, whose workers play]:number: ' '--program[the program that plays]:file:_files' '--help[tells of the command]' '*:file:_files' ;;
        *,compare) _arguments '--graph[a file]:file:_files' '--undirected[takes a directed graph of a file without its directions]' '--rules[hh, manne or hh,manne]:word:(hh manne)' '--daemon[some of synchronous,least,greatest,age,seeded,greedy,helpful,local,probabilityP]:word:(synchronous least greatest age seeded greedy helpful local)' '--seeds[how many seeds]:number: ' '--first-seed[the first seed]:number: ' '--faults[how many faults hit the silent network, as 10,50]:number: ' '--registers[which registers the faults write]:word:(any pointer flag)' '--any-value[faults write any value, also the one that is held]' '--joins[how many nodes join, with their edges]:number: ' '--leaves[how many nodes leave]:number: ' '--cut[how many links are cut]:number: ' '--add[how many links are added]:number: ' '--rewire[how many links are moved at one end]:number: ' '--move[how far each node of a disk graph walks]:number: ' '--every[how many moves come between two disturbances]:number: ' '--trace[a file of links and nodes that come and go at times, as CSV or JSON Lines]:file:_files' '--racks[a file of groups of nodes]:file:_files' '--csv[a file for the rows, written one by one]:file:_files' '--resume[makes only the rows that the file of --csv lacks]' '--force[begins the file of --csv anew if it is there]' '--maximum[adds a column with the size of a maximum matching]' '--partners[adds columns pairs broken and remade, nodes without a partner]' '--plot[a file for a plot, .svg, .png or .pdf]:file:_files' '--plotted[what it draws]:word:(moves rounds)' '--processes[how many processes]:number: ' '--dask[a Dask scheduler, whose workers play]:number: ' '--program[the program that plays]:file:_files' '--markdown[writes the table in Markdown]' '--help[tells of the command]' '*:file:_files' ;;
        *,worst) _arguments '--graph[a file]:file:_files' '--undirected[takes a directed graph of a file without its directions]' '--rules[the rules]:word:(hh manne)' '--seconds[seconds of a search, if there are too many states to look at all]:number: ' '--seed[the seed of that search]:number: ' '--transcript[writes the transcript instead of the script]' '--output[a file]:file:_files' '--program[the program that plays]:file:_files' '--help[tells of the command]' ;;
        *,check) _arguments '--help[tells of the command]' '*:file:_files' ;;
        *,shell) _arguments '--rules[the rules]:word:(hh manne)' '--nodes[how many nodes there may be, at most 65535]:number: ' '--present[how many of them are present at the start]:number: ' '--program[the program that plays]:file:_files' '--help[tells of the command]' ;;
        *,json) _arguments '--names[a file of the nodes names, of which line K is that of node K]:file:_files' '--program[the program that judges]:file:_files' '--help[tells of the command]' '*:file:_files' ;;
        *,conform) _arguments '--rules[the rules that your nodes implement]:word:(hh manne)' '--resync[goes on after a divergence, taking it for a fault, and after bad lines]' '--views[judges moves by what their nodes saw, and goes on]' '--ages[a CSV file for the ages of stale reads, with --views]:file:_files' '--age[how many lines back stale copies are guessed]:number: ' '--ignore-extra[ignores keys that the judge does not know]' '--stop[ends at the first divergence, also if a pipe has more to read]' '--stuck[reports each node that is enabled so long without a move]:number: ' '--output[a file for the transcript]:file:_files' '--program[the program that plays]:file:_files' '--help[tells of the command]' '*:file:_files' ;;
        *,explain) _arguments '--names[a file of the nodes names, of which line K is that of node K]:file:_files' '--program[the program that plays]:file:_files' '--help[tells of the command]' '*:file:_files' ;;
        *,bursts) _arguments '--names[a file of the nodes names, of which line K is that of node K]:file:_files' '--no-nodes[leaves out the two columns that list nodes]' '--partners[adds columns pairs broken and remade, nodes without a partner]' '--program[the program that judges]:file:_files' '--help[tells of the command]' '*:file:_files' ;;
        *,again) _arguments '--output[a file for the transcript]:file:_files' '--page[a file for a page that plays the transcript]:file:_files' '--undirected[takes a directed graph of a file without its directions]' '--program[the program that plays]:file:_files' '--help[tells of the command]' '*:file:_files' ;;
        *,page) _arguments '--output[a file for the page]:file:_files' '--names[a file of the nodes names, of which line K is that of node K]:file:_files' '--program[the program that judges]:file:_files' '--help[tells of the command]' '*:file:_files' ;;
    esac
}

if [[ $zsh_eval_context[-1] == loadautofunc ]]; then
    _rudekpi "$@"
elif (( $+functions[compdef] )); then
    compdef _rudekpi console rudekpi
fi
