_noise() {
    local word=${COMP_WORDS[COMP_CWORD]} before=${COMP_WORDS[COMP_CWORD - 1]} words="" files=""
    case $COMP_CWORD,${COMP_WORDS[1]},$before in
        1,*) words='list show check explain template talk replay convert test trace compare --help' ;;
        *,list,*) words='' files= ;;
        *,show,*) words='Noise_N_25519_ChaChaPoly_SHA256 Noise_K_25519_ChaChaPoly_SHA256 Noise_X_25519_ChaChaPoly_SHA256 Noise_NN_25519_ChaChaPoly_SHA256 Noise_NK_25519_ChaChaPoly_SHA256 Noise_NX_25519_ChaChaPoly_SHA256 Noise_KN_25519_ChaChaPoly_SHA256 Noise_KK_25519_ChaChaPoly_SHA256 Noise_KX_25519_ChaChaPoly_SHA256 Noise_XN_25519_ChaChaPoly_SHA256 Noise_XK_25519_ChaChaPoly_SHA256 Noise_XX_25519_ChaChaPoly_SHA256 Noise_IN_25519_ChaChaPoly_SHA256 Noise_IK_25519_ChaChaPoly_SHA256 Noise_IX_25519_ChaChaPoly_SHA256 ' files= ;;
        *,check,*) words='' files=yes ;;
        *,explain,*) words='--fix ' files=yes ;;
        *,template,*) words='Noise_N_25519_ChaChaPoly_SHA256 Noise_K_25519_ChaChaPoly_SHA256 Noise_X_25519_ChaChaPoly_SHA256 Noise_NN_25519_ChaChaPoly_SHA256 Noise_NK_25519_ChaChaPoly_SHA256 Noise_NX_25519_ChaChaPoly_SHA256 Noise_KN_25519_ChaChaPoly_SHA256 Noise_KK_25519_ChaChaPoly_SHA256 Noise_KX_25519_ChaChaPoly_SHA256 Noise_XN_25519_ChaChaPoly_SHA256 Noise_XK_25519_ChaChaPoly_SHA256 Noise_XX_25519_ChaChaPoly_SHA256 Noise_IN_25519_ChaChaPoly_SHA256 Noise_IK_25519_ChaChaPoly_SHA256 Noise_IX_25519_ChaChaPoly_SHA256 ' files=yes ;;
        *,talk,*) words='' files=yes ;;
        *,replay,*) words='' files=yes ;;
        *,convert,*) words='' files=yes ;;
        *,test,*) words='--trace ' files=yes ;;
        *,trace,--only) words='handshake transport' ;;
        *,trace,--role) words='initiator responder' ;;
        *,trace,*) words='--only --role --heading ' files=yes ;;
        *,compare,*) words='--all --json ' files=yes ;;
    esac
    mapfile -t COMPREPLY <<<"$(compgen -W "$words" -- "$word"; [ -z "$files" ] || compgen -f -- "$word")"
    [ -n "${COMPREPLY[0]}" ] || COMPREPLY=()
}
complete -o filenames -F _noise noise
