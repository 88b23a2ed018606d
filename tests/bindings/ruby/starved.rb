# frozen_string_literal: true

# Calls the gem where memory is refused: each request that a call makes, in turn, be it the library's or Ruby's own. Such a call has to
# raise NoMemoryError (or the RegexpError that Ruby has for it), or to answer what it answers else, where Ruby collects and asks again; and
# called again it answers that. No memory leaks. The library of tests/refusals/refuse.c is loaded before (LD_PRELOAD, with REFUSE_AT=0).
require_relative 'checks'
require 'fiddle'

extend Checks

# Of a call that makes more requests, so many are refused, spread over all.
MOST = 60
SOURCE = "{% for p in products %}{{ p.title | upcase }}{% render 'foot', p: p %}{% endfor %}{{ shop | size }}{{ nobody }}"
DATA = { 'products' => Array.new(20) { |n| { 'title' => "Tea #{n}", 'price' => n } }, 'shop' => 'Leaf', 'nobody' => nil }.freeze
JSON_TEXT = JSON.generate(DATA)
FOOT = { 'foot' => '[{{ p.price }}]' }.freeze
DEEP = { 'p' => "#{'{% if true %}' * 90}x#{'{% endif %}' * 90}" }.freeze

# The library that refuses memory.
module Refusing
  LIBRARY = Fiddle.dlopen(nil)
  BEGIN_CALL = Fiddle::Function.new(LIBRARY['refuse_begin'], [Fiddle::TYPE_LONG], Fiddle::TYPE_VOID)
  END_CALL = Fiddle::Function.new(LIBRARY['refuse_end'], [], Fiddle::TYPE_LONG)
  BLOCKS = Fiddle::Function.new(LIBRARY['refuse_blocks'], [], Fiddle::TYPE_LONG)

  module_function

  # How many requests a call makes.
  def requests
    BEGIN_CALL.call(0)
    yield
    END_CALL.call
  end

  # What a call answers with this request refused.
  def call(at)
    BEGIN_CALL.call(at)
    yield
  rescue NoMemoryError
    :no_memory
  rescue RegexpError => e
    e.message.start_with?('failed to allocate memory') ? :no_memory : raise
  ensure
    END_CALL.call
  end

  def blocks
    2.times { GC.start }
    BLOCKS.call
  end
end

# An object that has members by name.
class Drop
  def to_liquid
    self
  end

  def key?(name)
    name == 'title'
  end

  def [](name)
    "#{name} of a drop"
  end
end

# The words of the error that a call raises.
def refused
  yield
rescue Bikleinu::Error => e
  e.message
end

partials = Bikleinu::Environment.new(partials: FOOT)
template = partials.parse(SOURCE)
data = partials.data(DATA)
shout = Bikleinu::Environment.new(filters: { 'shout' => ->(text) { text.upcase } })
mail = shout.parse("{{ shop | shout }}{{ 'a' | shout }}")
deep = Bikleinu::Environment.new(partials: DEEP)
CALLS = {
  'a template' => -> { Bikleinu::Template.parse(SOURCE).source },
  'a refused one' => -> { refused { Bikleinu::Template.parse('{{ a | nope }}') } },
  'data' => -> { Bikleinu::Data.new(DATA).class },
  'data of other values' => -> { Bikleinu::Data.new({ a: 1.5, b: [{ c: Time.at(0, in: '+00:00') }] }, decimals: :text, times: true).class },
  'refused data' => -> { refused { Bikleinu::Data.new({ a: [1.5] }) } },
  'an environment' => -> { Bikleinu::Environment.new(partials: FOOT).parse(SOURCE).render!(DATA) },
  'partials that were used' => -> { partials.insert('foot', '[{{ p.price }}]') && template.render!(DATA) },
  'a page' => -> { template.render!(data) },
  'a page of a Hash' => -> { template.render!(DATA) },
  'a page of JSON' => -> { template.render!(JSON_TEXT) },
  'a page of a drop' => -> { Bikleinu::Template.parse('{{ a.title }}').render!('a' => Drop.new) },
  'a page within limits' => -> { template.page(data, turns: 3).text },
  'a deep page' => -> { deep.parse("{% render 'p' %}").render!(nil, depth: 9) },
  'data for a template' => -> { template.render!(template.data(JSON_TEXT)) },
  'names' => -> { Bikleinu::Template.parse(SOURCE).names },
  'paths' => -> { Bikleinu::Template.parse(SOURCE).paths },
  'a page with filters' => -> { mail.render!('shop' => 'Leaf') },
  'new tags' => lambda do
    tags = Bikleinu::Environment.new.register_tag('up') { |text| text.upcase }.register_block('loud') { |text| "#{text}!" }
    tags.parse("{% loud %}{% up 'b' %}{% endloud %}").render!
  end,
  'new filters' => -> { Bikleinu::Environment.new(filters: { 'shout' => ->(text) { text.upcase } }).parse("{{ 'a' | shout }}").render! },
  "jekyll's filters" => -> { Bikleinu::Environment.new(site: ['http://x.org', '/b']).parse("{{ 'a' | absolute_url }}").render! },
  'a fault' => -> { Bikleinu::Template.parse("{{ a | plus: 'x' }}").page(a: 1).fault.kind }
}.freeze

def places(count)
  count <= MOST ? (1..count).to_a : Array.new(MOST) { |at| 1 + (at * (count - 1) / (MOST - 1)) }.uniq
end

# What isn't well where the requests of the call are refused in turn, or nil, and how many of the calls had no memory.
def starved(call)
  wanted = call.call
  count = Refusing.requests(&call)
  met = 0
  places(count).each do |at|
    found = Refusing.call(at, &call)
    met += 1 if found == :no_memory
    return "request #{at} of #{count}: #{found.inspect}, and #{wanted.inspect} is wanted" unless [wanted, :no_memory].include?(found)

    after = call.call
    return "after request #{at} of #{count}: #{after.inspect}, and #{wanted.inspect} is wanted" if after != wanted
  end
  met.zero? ? "none of #{count} requests was refused" : left(call, count, met)
end

# What isn't well of the memory that is held, where the same is done again: Ruby's own heap grows by some pieces.
def left(call, count, met)
  held = Array.new(3) do
    places(count).each { |at| Refusing.call(at, &call) }
    Refusing.blocks
  end
  "#{held[2] - held[1]} pieces of memory leak in #{met} calls" if held[2] - held[1] > [met / 2, 8].max
end

CALLS.each { |name, call| same(name, nil) { starved(call) } }
report
