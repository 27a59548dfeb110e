# Completion of scan_deps for fish: put this file into ~/.config/fish/completions.

complete -c scan_deps -f
complete -c scan_deps -l compilation-database -r -F -d 'The compilation database'
complete -c scan_deps -l format -x -a p1689 -d 'The form of the document'
complete -c scan_deps -s j -x -a '1 2 4 8 16 32 64' -d 'The number of workers, 1 to 64'
complete -c scan_deps -l made -x -a '1 64 1000 4096' -d 'In place of a database, a made tree of so many units'
complete -c scan_deps -l schedule -x -d 'The number with which the schedule begins'
complete -c scan_deps -l predefines -r -F -d 'A header that each unit begins with'
complete -c scan_deps -l system-dirs -x -a '(__fish_complete_directories)' -d 'Folders for names in angle brackets'
