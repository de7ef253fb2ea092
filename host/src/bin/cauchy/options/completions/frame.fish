# fish completions of cauchy; made by `cauchy completions fish`
# behind `at DIR N` come the words of a reading
function __cauchy_is
    set -l words (commandline -opc)
    set -l command $words[2]
    if test (count $words) -ge 5 -a "$words[2]" = at
        set command $words[5]
    end
    contains -- "$command" $argv
end
function __cauchy_at_begin
    test (count (commandline -opc)) -eq 1
end
complete -c cauchy -f
complete -c cauchy -n __cauchy_at_begin -l help -d 'Tells of the commands'
complete -c cauchy -n __cauchy_at_begin -l version -d 'Tells the version'
