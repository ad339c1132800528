# Completion of `club` for fish. Made by tests/gate/manual.py --write from the help texts of the program.
function __club_words # the words of the line that are no options and no values of options
    set -l skip no
    for word in (commandline -opc)[2..-1]
        if test $skip = yes
            set skip no
        else if contains -- $word --now --part --most --event --member --count --host
            set skip yes
        else if not string match -q -- '-?*' $word
            echo $word
        end
    end
end

function __club_is_at # COUNT [COMMAND]: so many words are given, the second of them this command
    set -l words (__club_words)
    test (count $words) -eq $argv[1]; or return 1
    test (count $argv) -eq 1; or test "$words[2]" = $argv[2]
end

function __club_is_in # COMMAND: it is given
    set -l words (__club_words)
    test (count $words) -ge 2; and test "$words[2]" = $argv[1]
end

complete -c club -f
complete -c club -n '__club_is_at 0' -F
complete -c club -n '__club_is_at 0' -l explain -d 'Says on a second line what a refusal or a fault means, and what can be done'
complete -c club -n '__club_is_at 0' -l json -d 'Prints the answer of legal, show, rulings, members, events, games or challenges as one JSON document'
complete -c club -n '__club_is_at 0' -l now -x -d 'The moment that counts, in Unix seconds, in place of the machine\'s clock. One accepted command at a mistyped moment raises the club\'s clock for good'
complete -c club -n '__club_is_at 0' -s h -l help -d 'Print help'
complete -c club -n '__club_is_at 0' -s V -l version -d 'Print version'
complete -c club -n '__club_is_at 1' -a init -d 'Makes the tables of a club in an empty file'
complete -c club -n '__club_is_in init' -l arbiter -d 'Makes a club of schema 3, which takes the arbiter\'s orders: rule, retire, extend, key and close'
complete -c club -n '__club_is_in init' -s h -l help -d 'Print help'
complete -c club -n '__club_is_at 1' -a member -d 'Adds a member, with the key that the member will show'
complete -c club -n '__club_is_in member' -s h -l help -d 'Print help'
complete -c club -n '__club_is_at 1' -a event -d 'Adds an event; each player starts with BUDGET seconds and gains INCREMENT at each move'
complete -c club -n '__club_is_in event' -s h -l help -d 'Print help'
complete -c club -n '__club_is_at 3 event' -a 'draughts shogi'
complete -c club -n '__club_is_at 1' -a seat -d 'Starts a game of an event between two members, under a label'
complete -c club -n '__club_is_in seat' -s h -l help -d 'Print help'
complete -c club -n '__club_is_at 1' -a import-pdn -d 'Adds an ended game of an event of draughts from a PDN record, under a label'
complete -c club -n '__club_is_in import-pdn' -s h -l help -d 'Print help'
complete -c club -n '__club_is_at 6 import-pdn' -F
complete -c club -n '__club_is_at 1' -a import-csa -d 'Adds an ended game of an event of shogi from a CSA record, under a label'
complete -c club -n '__club_is_in import-csa' -l part -x -d 'Which of the records in the file: 1, if it is not given, for the first'
complete -c club -n '__club_is_in import-csa' -s h -l help -d 'Print help'
complete -c club -n '__club_is_at 6 import-csa' -F
complete -c club -n '__club_is_at 1' -a move -d 'Plays a move for the side whose ply it is'
complete -c club -n '__club_is_in move' -s h -l help -d 'Print help'
complete -c club -n '__club_is_at 1' -a sweep -d 'Ends by time every running game whose side to move has used more seconds than it has left'
complete -c club -n '__club_is_in sweep' -l most -x -d 'Ends no game if more games than N are overdue, and prints how many'
complete -c club -n '__club_is_in sweep' -s h -l help -d 'Print help'
complete -c club -n '__club_is_at 1' -a batch -d 'Gives the club many orders in turn, each a line as behind FILE: member, event, seat, move, sweep, import-pdn, import-csa, rule, key, close'
complete -c club -n '__club_is_in batch' -s h -l help -d 'Print help'
complete -c club -n '__club_is_at 2 batch' -F
complete -c club -n '__club_is_at 1' -a round-robin -d 'Seats members so that each plays each once, by the Berger table'
complete -c club -n '__club_is_in round-robin' -l double -d 'Each pair meets twice, with sides turned'
complete -c club -n '__club_is_in round-robin' -l dry -d 'Prints the seats as lines that \'batch\' takes, and seats nobody'
complete -c club -n '__club_is_in round-robin' -s h -l help -d 'Print help'
complete -c club -n '__club_is_at 1' -a rule -d 'Rules on a game as its arbiter: more time for a side, an end with a score, or a game that does not count'
complete -c club -n '__club_is_in rule' -s h -l help -d 'Print help'
complete -c club -n '__club_is_at 1' -a retire -d 'Rules on all running games of a member in an event: they are void, or awarded to the opponents'
complete -c club -n '__club_is_in retire' -l dry -d 'Prints the rulings as lines that \'batch\' takes, and gives none'
complete -c club -n '__club_is_in retire' -s h -l help -d 'Print help'
complete -c club -n '__club_is_at 1' -a extend -d 'Grants more time to both sides of all running games of an event; given twice it grants twice'
complete -c club -n '__club_is_in extend' -l dry -d 'Prints the rulings as lines that \'batch\' takes, and gives none'
complete -c club -n '__club_is_in extend' -s h -l help -d 'Print help'
complete -c club -n '__club_is_at 1' -a rulings -d 'Lists the rulings on a game, a line each: when it was given, after how many plies, and what it is'
complete -c club -n '__club_is_in rulings' -s h -l help -d 'Print help'
complete -c club -n '__club_is_at 1' -a key -d 'Gives a member another key, as after a loss or a theft; from then on no other key is the member\'s'
complete -c club -n '__club_is_in key' -s h -l help -d 'Print help'
complete -c club -n '__club_is_at 1' -a close -d 'Closes an event to challenges for good; its games and its seats go on'
complete -c club -n '__club_is_in close' -s h -l help -d 'Print help'
complete -c club -n '__club_is_at 1' -a legal -d 'Lists the legal moves of a game, a line each; nothing where it has ended'
complete -c club -n '__club_is_in legal' -s h -l help -d 'Print help'
complete -c club -n '__club_is_at 1' -a show -d 'Shows a game: whose turn it is, the time that each has left, the board and the moves'
complete -c club -n '__club_is_in show' -l letters -d 'Shows pieces of shogi by letters, in place of their Japanese names'
complete -c club -n '__club_is_in show' -s h -l help -d 'Print help'
complete -c club -n '__club_is_at 1' -a export -d 'Writes a game as a record: draughts in PDN, shogi in CSA'
complete -c club -n '__club_is_in export' -s h -l help -d 'Print help'
complete -c club -n '__club_is_at 1' -a export-event -d 'Writes all games of an event as records, by their numbers: PDN parted by an empty line, CSA by \'/\''
complete -c club -n '__club_is_in export-event' -s h -l help -d 'Print help'
complete -c club -n '__club_is_at 1' -a table -d 'Shows the cross table of an event: who has an ended game in it, by points, wins and id'
complete -c club -n '__club_is_in table' -s h -l help -d 'Print help'
complete -c club -n '__club_is_at 1' -a members -d 'Lists the members, a line each, without their keys'
complete -c club -n '__club_is_in members' -s h -l help -d 'Print help'
complete -c club -n '__club_is_at 1' -a events -d 'Lists the events, a line each, with how many games each has and how many of them run'
complete -c club -n '__club_is_in events' -s h -l help -d 'Print help'
complete -c club -n '__club_is_at 1' -a games -d 'Lists the games, a line each: who plays whom, and until when a move is due or how it ended'
complete -c club -n '__club_is_in games' -l event -x -d 'Only games of this event'
complete -c club -n '__club_is_in games' -l member -x -d 'Only games of this member'
complete -c club -n '__club_is_in games' -l running -d 'Only games that have not ended'
complete -c club -n '__club_is_in games' -l overdue -d 'Only games that \'sweep\' would end: the side to move has used up its time'
complete -c club -n '__club_is_in games' -s h -l help -d 'Print help'
complete -c club -n '__club_is_at 1' -a challenges -d 'Lists the challenges, a line each: who challenges whom, and what came of it'
complete -c club -n '__club_is_in challenges' -s h -l help -d 'Print help'
complete -c club -n '__club_is_at 1' -a verify -d 'Reads and replays the whole file, and says that it is sound, or which table is damaged'
complete -c club -n '__club_is_in verify' -s h -l help -d 'Print help'
complete -c club -n '__club_is_at 1' -a upgrade -d 'Carries a file of schema 1 over to schema 2, which has the rules of events; copy both files first'
complete -c club -n '__club_is_in upgrade' -l arbiter -d 'Carries a file of schema 1 or 2 over to schema 3, which takes the arbiter\'s orders: rule, retire, extend, key and close'
complete -c club -n '__club_is_in upgrade' -s h -l help -d 'Print help'
complete -c club -n '__club_is_at 1' -a backup -d 'Makes a copy of the club in FILE2, which must not exist'
complete -c club -n '__club_is_in backup' -s h -l help -d 'Print help'
complete -c club -n '__club_is_at 2 backup' -F
complete -c club -n '__club_is_at 1' -a serve -d 'Answers members over HTTP, one connection after another'
complete -c club -n '__club_is_in serve' -l log -d 'Writes a line for each connection: moment, method, path and status, and no key'
complete -c club -n '__club_is_in serve' -l count -x -d 'Ends after so many connections'
complete -c club -n '__club_is_in serve' -l host -x -d 'Answers only requests whose Host is a loopback address, localhost or a NAME so given, at any port'
complete -c club -n '__club_is_in serve' -s h -l help -d 'Print help'
