#compdef soqavise
# Completions of soqavise for zsh: as `_soqavise` in a folder of $fpath. .ci/completions writes it.

# Offers types, with and without their modules: those of the modules that the command line names, too.
_soqavise_types() {
    local -a modules types
    local index
    for ((index = 2; index < CURRENT; index++)); do
        case $words[index] in
            --module=*) modules+=(--module ${(Q)words[index]#--module=}) ;;
            --module|-m) modules+=(--module ${(Q)words[index + 1]}) ;;
            *) [[ $words[1] != generate || ! -f ${(Q)words[index]} ]] || modules+=(--module ${(Q)words[index]}) ;;
        esac
    done
    (( $#modules == 0 )) || types=(${(f)"$(soqavise types $modules 2> /dev/null)"})
    types+=(${(f)"$(soqavise types 2> /dev/null)"})
    types=(${types%%:*})
    compadd -a types
    types=(${types#*.})
    compadd -a types
}

_soqavise() {
    local curcontext=$curcontext state line
    local -a commands
    commands=(
        'show:Prints messages as text with names'
        'check:Prints nothing, or where a message is refused and why'
        'lint:Prints everything of messages of BER that departs from DER'
        'json:Prints messages as JSON (X.697)'
        'encode:Writes the messages whose JSON is read'
        'normalise:Writes messages of BER or CER as DER'
        'types:Lists the types of --module, or else those that are built in, or prints one of them'
        'dump:Prints headers, lengths and values of any BER, without a type'
        'get:Prints the values of parts, a line for each'
        'table:Prints a line for each message, with the values of these parts'
        'generate:Writes the types of modules as a crate of Rattle, and prints its line of crates.txt'
        'help:Prints help, of a command if one is named'
    )
    _arguments -C '(- *)'{-h,--help}'[Prints help]' '(- *)'{-V,--version}'[Prints the version]' '1: :->command' '*:: :->arguments'
    case $state in
        command) _describe command commands ;;
        arguments)
            case $words[1] in
                show)
                    _arguments -s -S \
                        '(- *)'{-h,--help}'[Prints help]' \
                        '*'{-m+,--module=}'[Reads modules of ASN.1 from this file or folder, too; may be repeated]:FILE:_files' \
                        '(-t --type)'{-t+,--type=}'[The type of the messages (without it, that of the label of PEM, or the first that reads a message)]:[MODULE.]TYPE:_soqavise_types' \
                        '(-l --lines)'{-l,--lines}'[Reads a message from each line, in hexadecimal or base64]' \
                        --errors='[The form in which --lines prints why a line is refused (without it, text)]:FORM:(text json)' \
                        --stream'[Reads several messages in a row, with nothing between them]' \
                        '(-i --input)'{-i+,--input=}'[The form of the input (without it, it is found out)]:FORM:(der pem hex base64)' \
                        '(-r --rules)'{-r+,--rules=}'[The encoding rules by which messages are read (without it, BER for types of CMS, LDAP, PKCS12 and SNMP, DER for others)]:RULES:(ber cer der)' \
                        --color='[When names are in bold (without it, on a terminal where NO_COLOR isn'\''t set)]:WHEN:(auto always never)' \
                        --offsets'[Prints where each part begins, and its lengths]' \
                        --full'[Prints all of octets that are cut otherwise]' \
                        --json'[Prints the same as JSON, with all octets; `json` prints that of X.697]' \
                        --html'[Prints a page of HTML\: parts, where departures from DER are marked, beside octets]' \
                        '*:FILE:_files'
                    ;;
                check)
                    _arguments -s -S \
                        '(- *)'{-h,--help}'[Prints help]' \
                        '*'{-m+,--module=}'[Reads modules of ASN.1 from this file or folder, too; may be repeated]:FILE:_files' \
                        '(-t --type)'{-t+,--type=}'[The type of the messages (without it, that of the label of PEM, or the first that reads a message)]:[MODULE.]TYPE:_soqavise_types' \
                        '(-l --lines)'{-l,--lines}'[Reads a message from each line, in hexadecimal or base64]' \
                        --errors='[The form in which --lines prints why a line is refused (without it, text)]:FORM:(text json)' \
                        --stream'[Reads several messages in a row, with nothing between them]' \
                        '(-i --input)'{-i+,--input=}'[The form of the input (without it, it is found out)]:FORM:(der pem hex base64)' \
                        '(-r --rules)'{-r+,--rules=}'[The encoding rules by which messages are read (without it, BER for types of CMS, LDAP, PKCS12 and SNMP, DER for others)]:RULES:(ber cer der)' \
                        --outer'[Leaves out what is inside open types]' \
                        '*:FILE:_files'
                    ;;
                lint)
                    _arguments -s -S \
                        '(- *)'{-h,--help}'[Prints help]' \
                        '*'{-m+,--module=}'[Reads modules of ASN.1 from this file or folder, too; may be repeated]:FILE:_files' \
                        '(-t --type)'{-t+,--type=}'[The type of the messages (without it, that of the label of PEM, or the first that reads a message)]:[MODULE.]TYPE:_soqavise_types' \
                        '(-l --lines)'{-l,--lines}'[Reads a message from each line, in hexadecimal or base64]' \
                        --errors='[The form in which --lines prints why a line is refused (without it, text)]:FORM:(text json)' \
                        --stream'[Reads several messages in a row, with nothing between them]' \
                        '(-i --input)'{-i+,--input=}'[The form of the input (without it, it is found out)]:FORM:(der pem hex base64)' \
                        --outer'[Leaves out what is inside open types]' \
                        '*:FILE:_files'
                    ;;
                json)
                    _arguments -s -S \
                        '(- *)'{-h,--help}'[Prints help]' \
                        '*'{-m+,--module=}'[Reads modules of ASN.1 from this file or folder, too; may be repeated]:FILE:_files' \
                        '(-t --type)'{-t+,--type=}'[The type of the messages (without it, that of the label of PEM, or the first that reads a message)]:[MODULE.]TYPE:_soqavise_types' \
                        '(-l --lines)'{-l,--lines}'[Reads a message from each line, in hexadecimal or base64]' \
                        --errors='[The form in which --lines prints why a line is refused (without it, text)]:FORM:(text json)' \
                        --stream'[Reads several messages in a row, with nothing between them]' \
                        '(-i --input)'{-i+,--input=}'[The form of the input (without it, it is found out)]:FORM:(der pem hex base64)' \
                        '(-r --rules)'{-r+,--rules=}'[The encoding rules by which messages are read (without it, BER for types of CMS, LDAP, PKCS12 and SNMP, DER for others)]:RULES:(ber cer der)' \
                        --numbers='[The form of whole numbers that a double can'\''t hold\: as text strings of digits (without it, json)]:FORM:(json text)' \
                        '*:FILE:_files'
                    ;;
                encode)
                    _arguments -s -S \
                        '(- *)'{-h,--help}'[Prints help]' \
                        '*'{-m+,--module=}'[Reads modules of ASN.1 from this file or folder, too; may be repeated]:FILE:_files' \
                        '(-t --type)'{-t+,--type=}'[The type of the messages]:[MODULE.]TYPE:_soqavise_types' \
                        --example='[Prints JSON of this type to begin with, and reads nothing]:[MODULE.]TYPE:_soqavise_types' \
                        '(-r --rules)'{-r+,--rules=}'[The encoding rules by which messages are written (without it, BER for types of CMS, LDAP, PKCS12 and SNMP, DER for others)]:RULES:(ber cer der)' \
                        '(-l --lines)'{-l,--lines}'[Reads the JSON of a message from each line, and writes hexadecimal digits]' \
                        --errors='[The form in which --lines prints why a line is refused (without it, text)]:FORM:(text json)' \
                        '*:FILE:_files'
                    ;;
                normalise)
                    _arguments -s -S \
                        '(- *)'{-h,--help}'[Prints help]' \
                        '*'{-m+,--module=}'[Reads modules of ASN.1 from this file or folder, too; may be repeated]:FILE:_files' \
                        '(-t --type)'{-t+,--type=}'[The type of the messages (without it, that of the label of PEM, or the first that reads a message)]:[MODULE.]TYPE:_soqavise_types' \
                        '(-l --lines)'{-l,--lines}'[Reads a message from each line, in hexadecimal or base64]' \
                        --errors='[The form in which --lines prints why a line is refused (without it, text)]:FORM:(text json)' \
                        --stream'[Reads several messages in a row, with nothing between them]' \
                        '(-i --input)'{-i+,--input=}'[The form of the input (without it, it is found out)]:FORM:(der pem hex base64)' \
                        '(-r --rules)'{-r+,--rules=}'[The encoding rules by which messages are read (without it, BER for types of CMS, LDAP, PKCS12 and SNMP, DER for others)]:RULES:(ber cer der)' \
                        --local='[What a time without a zone counts as (without it, the message is refused)]:ZONE:(utc)' \
                        '*:FILE:_files'
                    ;;
                types)
                    _arguments -s -S \
                        '(- *)'{-h,--help}'[Prints help]' \
                        '*'{-m+,--module=}'[Reads modules of ASN.1 from this file or folder, too; may be repeated]:FILE:_files' \
                        ':[MODULE.]TYPE:_soqavise_types'
                    ;;
                dump)
                    _arguments -s -S \
                        '(- *)'{-h,--help}'[Prints help]' \
                        '*'{-m+,--module=}'[Reads modules of ASN.1 from this file or folder, too; may be repeated]:FILE:_files' \
                        '(-i --input)'{-i+,--input=}'[The form of the input (without it, it is found out)]:FORM:(der pem hex base64)' \
                        '*:FILE:_files'
                    ;;
                get)
                    _arguments -s -S \
                        '(- *)'{-h,--help}'[Prints help]' \
                        '*'{-m+,--module=}'[Reads modules of ASN.1 from this file or folder, too; may be repeated]:FILE:_files' \
                        '(-t --type)'{-t+,--type=}'[The type of the messages (without it, that of the label of PEM, or the first that reads a message)]:[MODULE.]TYPE:_soqavise_types' \
                        '(-l --lines)'{-l,--lines}'[Reads a message from each line, in hexadecimal or base64]' \
                        --errors='[The form in which --lines prints why a line is refused (without it, text)]:FORM:(text json)' \
                        --stream'[Reads several messages in a row, with nothing between them]' \
                        '(-i --input)'{-i+,--input=}'[The form of the input (without it, it is found out)]:FORM:(der pem hex base64)' \
                        '(-r --rules)'{-r+,--rules=}'[The encoding rules by which messages are read (without it, BER for types of CMS, LDAP, PKCS12 and SNMP, DER for others)]:RULES:(ber cer der)' \
                        --json'[Prints values as JSON (X.697)]' \
                        ':PATH[,PATH]..: ' \
                        '*:FILE:_files'
                    ;;
                table)
                    _arguments -s -S \
                        '(- *)'{-h,--help}'[Prints help]' \
                        '*'{-m+,--module=}'[Reads modules of ASN.1 from this file or folder, too; may be repeated]:FILE:_files' \
                        '(-t --type)'{-t+,--type=}'[The type of the messages (without it, that of the label of PEM, or the first that reads a message)]:[MODULE.]TYPE:_soqavise_types' \
                        '(-l --lines)'{-l,--lines}'[Reads a message from each line, in hexadecimal or base64]' \
                        --errors='[The form in which --lines prints why a line is refused (without it, text)]:FORM:(text json)' \
                        --stream'[Reads several messages in a row, with nothing between them]' \
                        '(-i --input)'{-i+,--input=}'[The form of the input (without it, it is found out)]:FORM:(der pem hex base64)' \
                        '(-r --rules)'{-r+,--rules=}'[The encoding rules by which messages are read (without it, BER for types of CMS, LDAP, PKCS12 and SNMP, DER for others)]:RULES:(ber cer der)' \
                        --csv'[Prints commas between the columns, and not tabs]' \
                        ':PATH[,PATH]..: ' \
                        '*:FILE:_files'
                    ;;
                generate)
                    _arguments -s -S \
                        '(- *)'{-h,--help}'[Prints help]' \
                        --out='[The folder of the crate, which has its name; files of these types are overwritten]:FOLDER:_path_files -/' \
                        '*'--message='[Says that TYPE is a whole message, which is read by RULES\: ber, cer or der; may be repeated]:TYPE=RULES:_soqavise_types' \
                        '*'--also='[Names a file NAME.rt of the crate that is written by hand, as a public module; may be repeated]:NAME: ' \
                        '*'--type='[Writes TYPE and what it is made of, instead of all types of the modules; may be repeated]:TYPE:_soqavise_types' \
                        '*'--open='[Writes TYPE as an open type, whose values are octets; may be repeated]:TYPE:_soqavise_types' \
                        '*'--from='[Takes the types of the modules in FILE from CRATE, which has been written of them; may be repeated]:CRATE=FILE:_files' \
                        '*:FILE:_files'
                    ;;
                help) _describe command commands ;;
            esac
            ;;
    esac
}

_soqavise "$@"
