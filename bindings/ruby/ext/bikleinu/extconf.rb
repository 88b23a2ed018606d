# frozen_string_literal: true

# Makes a Makefile for the extension, with the library for C in it: that of the gem, of the folder that BIKLEINU_FOLDER names,
# or of this repository, where bindings/build puts it.
require 'mkmf'

top = File.expand_path('../../../..', __dir__)
named = ENV.fetch('BIKLEINU_FOLDER', nil)
places = named ? [named, __dir__] : [__dir__, "#{top}/bindings/out"]
archive = places.map { |it| "#{it}/libbikleinu.a" }.find { |it| File.exist?(it) }
header = [*places, "#{top}/include"].find { |it| File.exist?("#{it}/bikleinu.h") }
abort 'bikleinu: the library libbikleinu.a is not there: run bindings/build at the top of the repository' unless archive
abort 'bikleinu: the header bikleinu.h is not there' unless header

$INCFLAGS << " -I#{header.shellescape}" # rubocop:disable Style/GlobalVars
$CFLAGS << ' -std=gnu11 -Wall -Wextra -Wno-unused-parameter -Wno-declaration-after-statement' # rubocop:disable Style/GlobalVars
$LOCAL_LIBS << " #{archive.shellescape}" # rubocop:disable Style/GlobalVars
append_ldflags('-Wl,--exclude-libs,ALL')
have_library('pthread')
create_makefile('bikleinu/bikleinu_ext')
