complete -c noise -f
complete -c noise -n __fish_use_subcommand -a list -d 'Print the names of the fundamental patterns'
complete -c noise -n __fish_use_subcommand -a show -d 'Print the pattern of a protocol name, and how many bytes each message adds'
complete -c noise -n __fish_use_subcommand -a check -d 'Say whether the pattern in a file is valid, and how many bytes each message adds'
complete -c noise -n __fish_use_subcommand -a explain -d 'Say in sentences what is wrong with a pattern or a vector file, and what follows from it'
complete -c noise -n __fish_use_subcommand -a template -d 'Print a vector file with the lines that a pattern needs, and a placeholder for each key'
complete -c noise -n __fish_use_subcommand -a talk -d 'Run two parties on a vector file and print what each writes and reads'
complete -c noise -n __fish_use_subcommand -a replay -d 'Run two parties on a vector file whose frames may be lost, repeated or foreign'
complete -c noise -n __fish_use_subcommand -a convert -d 'Print a version 1 vector file as one of version 2 that expects what its run prints'
complete -c noise -n __fish_use_subcommand -a test -d 'Run vector files and say of each whether its run is what it expects'
complete -c noise -n __fish_use_subcommand -a trace -d 'Run two parties as replay does and print the key schedule of each: what it prints are secrets'
complete -c noise -n __fish_use_subcommand -a compare -d 'Print the first line of a logged key schedule that differs from that of a vector file, and the mistakes that give its values, or what these show: what it prints are secrets'
complete -c noise -n '__fish_seen_subcommand_from show' -a 'Noise_N_25519_ChaChaPoly_SHA256 Noise_K_25519_ChaChaPoly_SHA256 Noise_X_25519_ChaChaPoly_SHA256 Noise_NN_25519_ChaChaPoly_SHA256 Noise_NK_25519_ChaChaPoly_SHA256 Noise_NX_25519_ChaChaPoly_SHA256 Noise_KN_25519_ChaChaPoly_SHA256 Noise_KK_25519_ChaChaPoly_SHA256 Noise_KX_25519_ChaChaPoly_SHA256 Noise_XN_25519_ChaChaPoly_SHA256 Noise_XK_25519_ChaChaPoly_SHA256 Noise_XX_25519_ChaChaPoly_SHA256 Noise_IN_25519_ChaChaPoly_SHA256 Noise_IK_25519_ChaChaPoly_SHA256 Noise_IX_25519_ChaChaPoly_SHA256 '
complete -c noise -n '__fish_seen_subcommand_from check' -F
complete -c noise -n '__fish_seen_subcommand_from explain' -l fix
complete -c noise -n '__fish_seen_subcommand_from explain' -F
complete -c noise -n '__fish_seen_subcommand_from template' -a 'Noise_N_25519_ChaChaPoly_SHA256 Noise_K_25519_ChaChaPoly_SHA256 Noise_X_25519_ChaChaPoly_SHA256 Noise_NN_25519_ChaChaPoly_SHA256 Noise_NK_25519_ChaChaPoly_SHA256 Noise_NX_25519_ChaChaPoly_SHA256 Noise_KN_25519_ChaChaPoly_SHA256 Noise_KK_25519_ChaChaPoly_SHA256 Noise_KX_25519_ChaChaPoly_SHA256 Noise_XN_25519_ChaChaPoly_SHA256 Noise_XK_25519_ChaChaPoly_SHA256 Noise_XX_25519_ChaChaPoly_SHA256 Noise_IN_25519_ChaChaPoly_SHA256 Noise_IK_25519_ChaChaPoly_SHA256 Noise_IX_25519_ChaChaPoly_SHA256 '
complete -c noise -n '__fish_seen_subcommand_from template' -F
complete -c noise -n '__fish_seen_subcommand_from talk' -F
complete -c noise -n '__fish_seen_subcommand_from replay' -F
complete -c noise -n '__fish_seen_subcommand_from convert' -F
complete -c noise -n '__fish_seen_subcommand_from test' -l trace
complete -c noise -n '__fish_seen_subcommand_from test' -F
complete -c noise -n '__fish_seen_subcommand_from trace' -l only -x -a 'handshake transport'
complete -c noise -n '__fish_seen_subcommand_from trace' -l role -x -a 'initiator responder'
complete -c noise -n '__fish_seen_subcommand_from trace' -l heading
complete -c noise -n '__fish_seen_subcommand_from trace' -F
complete -c noise -n '__fish_seen_subcommand_from compare' -l all
complete -c noise -n '__fish_seen_subcommand_from compare' -l json
complete -c noise -n '__fish_seen_subcommand_from compare' -F
