# Completes the words of liquid_page in fish.
complete -c liquid_page -d 'Write the page of a Liquid template'
