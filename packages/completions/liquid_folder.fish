# Completes the words of liquid_folder in fish.
complete -c liquid_folder -d 'Write the pages of a folder'
