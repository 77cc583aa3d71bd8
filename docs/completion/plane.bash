# Completion of plane(1) for bash: source it, or install it as /usr/share/bash-completion/completions/plane.

# The words of `plane uci`: options, then a command, then packages of the folder.
_plane_uci() {
	local word=${COMP_WORDS[COMP_CWORD]} folder=/etc/config place=2 option
	while [ "$place" -lt "$COMP_CWORD" ]; do
		option=${COMP_WORDS[place]}
		case $option in
		-c | -t | -d | -f)
			if [ $((place + 1)) -eq "$COMP_CWORD" ]; then
				case $option in
				-c | -t) mapfile -t COMPREPLY < <(compgen -d -- "$word") ;;
				-f) mapfile -t COMPREPLY < <(compgen -f -- "$word") ;;
				esac
				return
			fi
			[ "$option" = -c ] && folder=${COMP_WORDS[place + 1]}
			place=$((place + 2))
			;;
		-n | -N | -X | -m | -q) place=$((place + 1)) ;;
		*) break ;;
		esac
	done
	if [ "$place" -eq "$COMP_CWORD" ]; then
		mapfile -t COMPREPLY < <(compgen -W '-c -t -d -f -n -N -X -m -q show get set add_list del_list delete rename reorder add
			changes revert commit export import batch' -- "$word")
		return
	fi
	# The first word behind the command begins with a package.
	if [ $((place + 1)) -eq "$COMP_CWORD" ] && [ "${COMP_WORDS[place]}" != batch ]; then
		local file
		for file in "$folder"/*; do
			file=${file##*/}
			[[ $file == "$word"* && $file != *[!A-Za-z0-9_-]* ]] && COMPREPLY+=("$file")
		done
	fi
}

_plane() {
	local word=${COMP_WORDS[COMP_CWORD]}
	COMPREPLY=()
	if [ "$COMP_CWORD" -eq 1 ]; then
		mapfile -t COMPREPLY < <(compgen -W 'start run uci gen --help --version' -- "$word")
		return
	fi
	if [ "${COMP_WORDS[1]}" = uci ]; then
		_plane_uci
		return
	fi
	# Options of `plane run`, each once; a folder behind -c and -t, and the empty access list behind -a.
	if [ "${COMP_WORDS[1]}" = run ]; then
		case ${COMP_WORDS[COMP_CWORD - 1]} in
		-c | -t) mapfile -t COMPREPLY < <(compgen -d -- "$word") ;;
		-a) mapfile -t COMPREPLY < <(compgen -W '[]' -- "$word") ;;
		-w) ;;
		*)
			local option place
			for option in -c -t -a -w; do
				for ((place = 2; place < COMP_CWORD; place += 2)); do
					[ "${COMP_WORDS[place]}" = "$option" ] && continue 2
				done
				[[ $option == "$word"* ]] && COMPREPLY+=("$option")
			done
			;;
		esac
		return
	fi
	# Devices of this machine; each is named once.
	if [ "${COMP_WORDS[1]}" = start ]; then
		local device given
		for device in /sys/class/net/*; do
			device=${device##*/}
			for given in "${COMP_WORDS[@]:2:COMP_CWORD-2}"; do
				[ "$given" = "$device" ] && continue 2
			done
			[[ $device == "$word"* ]] && COMPREPLY+=("$device")
		done
	fi
}

complete -F _plane plane
