# frozen_string_literal: true

# Times pages by Liquid and by the gem, for tools/compare/gem: ruby [-r liquid/c] gem.rb FOLDER NAME ..
require 'bikleinu'
require 'json'
require 'liquid'

FOLDER, *NAMES = ARGV
# for how many seconds each engine renders a page
SECONDS = 2
LIQUID = defined?(Liquid::C) ? "Liquid with liquid-c #{Liquid::C::VERSION}" : "Liquid #{Liquid::VERSION}"

def text(file) = File.read("#{FOLDER}/#{file}", encoding: 'UTF-8')

# The partials of a page, by their names.
class Partials
  def read_template_file(name) = text("#{name}.liquid")
end

def now = Process.clock_gettime(Process::CLOCK_PROCESS_CPUTIME_ID)

# The microseconds that one call of the block takes.
def took
  GC.start
  began = now
  calls = 0
  until now - began > SECONDS
    yield
    calls += 1
  end
  (now - began) / calls * 1e6
end

NAMES.each do |name|
  source, json = %w[liquid json].map { |suffix| text("#{name}.#{suffix}") }
  data = JSON.parse(json)
  liquid = Liquid::Template.parse(source)
  options = { registers: { file_system: Partials.new } }
  gem = Bikleinu::Environment.new(partials: Partials.new).parse(source)
  abort "#{name}: the pages differ" if liquid.render!(data, options) != gem.render!(data)

  hash = [took { liquid.render!(data, options) }, took { gem.render!(data) }]
  parsed = [took { liquid.render!(JSON.parse(json), options) }, took { gem.render!(json) }]
  puts format("%-9s Hash %6d us, #{LIQUID} %6d us: %4.1f times; JSON %6d us, #{LIQUID} %6d us: %4.1f times", name,
              hash[1], hash[0], hash[0] / hash[1], parsed[1], parsed[0], parsed[0] / parsed[1])
end
