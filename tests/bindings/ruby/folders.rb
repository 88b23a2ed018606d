# frozen_string_literal: true

# Reads folders as partials: for each path on a line of standard input a line of JSON, with the names and the lines of what is left out, or
# null where one isn't UTF-8. tests/bindings/rubies.py asks.
require 'bikleinu'
require 'json'
require 'stringio'

$stdout.sync = true
$stdin.each_line(chomp: true) do |path|
  $stderr = StringIO.new
  names = Bikleinu::Environment.new(partials: path).partials.state.sources.keys.sort
  puts JSON.generate([names, $stderr.string.lines(chomp: true).sort])
rescue EncodingError
  puts 'null'
ensure
  $stderr = STDERR
end
