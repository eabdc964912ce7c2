# What fish completes after tftp-match: the captures, and the options.
complete -c tftp-match -l transfer -x -d 'The number of the transfer in the recording'
complete -c tftp-match -l server-transfer -x -d 'The number of the transfer in the server\'s recording'
complete -c tftp-match -l service -x -d 'A port to which requests go, beside 69'
complete -c tftp-match -l rollover -x -a '0 1' -d 'What comes after block 65535'
complete -c tftp-match -l counts -d 'How often each packet was sent and taken'
complete -c tftp-match -l json -d 'One object of JSON'
complete -c tftp-match -s h -l help -d 'How it is called'
complete -c tftp-match -s V -l version -d 'The version'
