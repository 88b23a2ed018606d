# frozen_string_literal: true

require_relative 'checks'
require 'bigdecimal'
require 'date'
begin
  require 'liquid'
rescue LoadError
  puts "bindings: this machine hasn't Debian's ruby-liquid, so its drops aren't tried"
end

extend Checks

# An object that has members by name, and counts how often it is asked.
class Shelf
  attr_reader :asked

  def initialize(members)
    @members = members
    @asked = []
  end

  def key?(name)
    @members.key?(name)
  end

  def [](name)
    @asked << name
    @members.fetch(name)
  end

  def to_liquid
    self
  end
end

# An object that stands for another value.
Standing = Struct.new(:value) do
  def to_liquid
    value
  end
end

# A list of its own, and an object without anything.
Tens = Class.new do
  include Enumerable

  def each(&)
    [10, 20].each(&)
  end
end
Bare = Class.new

def nested(count)
  count.times.inject(1) { |inner, _| [inner] }
end

SMALLER = 'numbers are whole here: give an Integer of a smaller unit, as cents, a String, or decimals: :text'
OTHER = 'give a Hash, an Array, a String, an Integer, true, false or nil, as value.to_s, or define to_liquid'
itself = []
itself << { 'me' => itself }
member = {}
member['me'] = member

# Data, and the error that they are refused with where the template asks for a whole `a`.
{
  1.5 => "Float: a: 1.5 is a Float, and #{SMALLER}",
  Float::INFINITY => "InvalidInput: a: Infinity is a Float, which JSON doesn't have: give nil or a String",
  Float::NAN => "InvalidInput: a: NaN is a Float, which JSON doesn't have: give nil or a String",
  BigDecimal('0.5') => "Float: a: 0.5e0 is a BigDecimal, and #{SMALLER}",
  2**63 => 'Float: a: an Integer of 64 bits, and numbers have 64 here: give a text, as value.to_s',
  -(2**70) => 'Float: a: an Integer of 70 bits, and numbers have 64 here: give a text, as value.to_s',
  Time.utc(2024, 5, 3) => "InvalidInput: a: 2024-05-03 00:00:00 UTC is a Time, which JSON doesn't have: give a String, or times: true",
  Date.new(2024, 5, 3) => "InvalidInput: a: 2024-05-03 is a Date, which JSON doesn't have: give a String, or times: true",
  Bare.new => "InvalidInput: a: a value of the class Bare, which JSON doesn't have: #{OTHER}",
  3r => "InvalidInput: a: a value of the class Rational, which JSON doesn't have: #{OTHER}",
  ->(one) { one } => "InvalidInput: a: a value of the class Proc, which JSON doesn't have: #{OTHER}",
  [{ 'b' => 0.25 }] => "Float: a[0].b: 0.25 is a Float, and #{SMALLER}",
  { 'unit price' => [0.25] } => "Float: a[\"unit price\"][0]: 0.25 is a Float, and #{SMALLER}",
  { "b\n" => 0.25 } => "Float: a[\"b\\u{a}\"]: 0.25 is a Float, and #{SMALLER}",
  { 2 => 3 } => 'InvalidInput: a: has a key of the class Integer, and names are texts or symbols: give key.to_s',
  { nil => 3 } => 'InvalidInput: a: has a key of the class NilClass, and names are texts or symbols: give key.to_s',
  [["\xff"]] => "NoText: a[0][0]: the text isn't UTF-8, and can't be made so: its encoding is UTF-8",
  "\xff".b => "NoText: a: the text isn't UTF-8, and can't be made so: its encoding is ASCII-8BIT",
  "\xd8\x00".dup.force_encoding('UTF-16BE') => "NoText: a: the text isn't UTF-8, and can't be made so: its encoding is UTF-16BE",
  { "\xff" => 1 } => "NoText: a[\"?\"]: the text isn't UTF-8, and can't be made so: its encoding is UTF-8",
  Standing.new(Bare.new) => "InvalidInput: a: a value of the class Bare, which JSON doesn't have: #{OTHER}",
  Shelf.new({}) => "InvalidInput: a: a value of the class Shelf, which JSON doesn't have: #{OTHER}",
  itself => 'InvalidInput: a[0].me: a list or a map stands in itself here',
  member => 'InvalidInput: a.me: a list or a map stands in itself here',
  nested(128) => /\AInvalidInput: a\[0\].*\.\.: more than 127 lists and maps stand in one another here\z/
}.each do |value, message|
  wanted = message.is_a?(String) ? "Bikleinu::DataError: #{message}" : Regexp.new("\\ABikleinu::DataError: #{message.source[2..]}")
  same("a value of the class #{value.class}", wanted) { template('{{ a }}').render('a' => value) }
end
same('the path', ['a[0].b', :float, 7, nil]) do
  template('{{ a }}').page('a' => [{ 'b' => 1.5 }])
rescue Bikleinu::DataError => e
  [e.path, e.kind, e.number, e.line]
end
[3, [], 1.5, Bare.new, :a].each do |data|
  message = "Bikleinu::DataError: InvalidInput: the data: a value of the class #{data.class}, and a Hash of names and values is wanted"
  same("data of the class #{data.class}", message) { template('{{ a }}').render(data) }
end
same('JSON that is none', /\ABikleinu::DataError: InvalidInput: in the data: line 2, column 2/) { template('{{ a }}').render("{\"a\":\n x}") }
same('JSON that is not UTF-8', /\AEncodingError: JSON isn't UTF-8: line 2/) { template('{{ a }}').render("{\n\"\xff\": 1}") }

# Values, what `{{ a }}` shows of them, and the options.
[
  [19.99, '19.99', { decimals: :text }],
  [2.0, '2.0', { decimals: :text }],
  [1e22, "1#{'0' * 22}.0", { decimals: :text }],
  [1e-7, '0.0000001', { decimals: :text }],
  [BigDecimal('19.90'), '19.9', { decimals: :text }],
  [BigDecimal('1e1000000'), '0.1e1000001', { decimals: :text }],
  [Date.new(2024, 5, 3), '2024-05-03 00:00:00 +0000', { times: true }],
  [Date.new(2024, 5, 3), '2024-05-03 00:00:00 +0200', { times: '+02:00' }],
  [DateTime.new(2024, 5, 3, 4, 5, 6, '-01:30'), '2024-05-03 04:05:06 -0130', { times: true }],
  [Time.new(24, 5, 3, 14, 30, 1, '+02:00'), '0024-05-03 14:30:01 +0200', { times: true }],
  [-(2**63), '-9223372036854775808', {}],
  [(2**63) - 1, '9223372036854775807', {}],
  [:symbol, 'symbol', {}],
  [nil, '', {}],
  [true, 'true', {}],
  [false, 'false', {}],
  [[1, 'b', nil], '1b', {}],
  ["\u{e9}\u{1f600}\"\\\u0001\u2028\n", "\u{e9}\u{1f600}\"\\\u0001\u2028\n", {}],
  ["\xe9".dup.force_encoding('ISO-8859-1'), "\u{e9}", {}],
  ["\u{e9}".encode('UTF-16LE'), "\u{e9}", {}],
  ["\u{e9}".b, "\u{e9}", {}],
  [Standing.new('c'), 'c', {}],
  [Class.new(String).new('d'), 'd', {}],
  [Class.new(Array).new([1, 2]), '12', {}],
  [Tens.new, '1020', {}],
  [-> { 7 }, '7', {}],
  [nested(126), '1', {}]
].each { |value, text, how| same("#{value.class} #{text[0, 20]}", text) { template('{{ a }}', **how).render!('a' => value) } }
same('years', /its offset has whole minutes, and its year is 0 to 9998\z/) do
  template('{{ a }}', times: true).render('a' => Time.new(9999, 1, 1, 0, 0, 0, '+00:00'))
end
same('offsets', /its offset has whole minutes/) { template('{{ a }}', times: true).render('a' => Time.new(2024, 1, 1, 0, 0, 0, 3601)) }
same('a day as a date', '3 May 2024') { template("{{ a | date: '%-d %B %Y' }}", times: true).render!(a: Date.new(2024, 5, 3)) }

# Keys, and what a template doesn't ask for.
same('symbols', '12') { template('{{ a.b }}{{ a.c }}').render!(a: { b: 1, 'c' => 2 }) }
same('a text before a symbol', '11') { template('{{ a.b }}{% for p in a %}{{ p[1] }}{% endfor %}').render!(a: { b: 2, 'b' => 1 }) }
same('what nobody asks for', 'x') { template('{{ a.b }}').render!(a: { b: 'x', c: 1.5, 7 => 8 }, d: Bare.new) }
same('sizes', '2 2 3 0') do
  template('{{ a.size }} {{ b.size }} {{ c.size }} {{ d.size }}').render!(a: [1.5, 2.5], b: { x: 1, 'y' => 2 }, c: 'abc', d: [])
end
same('ends', '1 3') { template('{{ a.first.b }} {{ a.last.b }}').render!(a: [{ b: 1, c: 1.5 }, { b: 2 }, { b: 3 }]) }
same('a condition', 'yn') { template('{% if a %}y{% endif %}{% if b %}y{% else %}n{% endif %}').render!(a: { x: 1.5 }, b: nil) }

# Objects that have members by name are asked for those that the template asks for.
shelf = Shelf.new('b' => 1, 'c' => [Shelf.new('d' => 2)], 'e' => 1.5)
same('members by name', '12') { template('{{ a.b }}{% for it in a.c %}{{ it.d }}{% endfor %}').render!(a: shelf) }
same('which were asked', %w[b c]) { shelf.asked.sort }
same('data themselves', '1') { template('{{ b }}').render!(shelf) }
same('a member that lacks', /UnknownVariable/) { template('{{ a.x }}').page(a: shelf).fault.message }
raising = Shelf.new('b' => 1)
raising.define_singleton_method(:[]) { |name| raise KeyError, "no #{name}" }
page = template('{{ a.b }}')
same('one that raises', 'KeyError: no b') { page.render(a: raising) }
same('the page after it', '3') { page.render!(a: { b: 3 }) }
same('one that throws', :thrown) { catch(:out) { page.render(a: raising.tap { |it| it.define_singleton_method(:[]) { |_| throw :out, :thrown } }) } }
changing = { 'b' => Standing.new(1), 'c' => 2 }
changing['b'].define_singleton_method(:to_liquid) { changing.store('d', 3) }
same('a map that changes', /can't add a new key into hash during iteration/) { template('{{ a }}').render(a: changing) }

if defined?(Liquid::Drop)
  drops = Class.new(Liquid::Drop) do
    def price
      1999
    end

    def fails
      raise 'no price'
    end
  end
  open = Class.new(Liquid::Drop) { def liquid_method_missing(name) = "<#{name}>" }
  same('a drop of Liquid', '1999') { template('{{ a.price }}').render!(a: drops.new) }
  same('a member that it lacks', :unknown_variable) { template('{{ a.title }}').page(a: drops.new).fault.kind }
  same('one that answers any name', '<title>') { template('{{ a.title }}').render!(a: open.new) }
  same('one whose method raises', 'RuntimeError: no price') { template('{{ a.fails }}').render(a: drops.new) }
  same('one as data', '1999') { template('{{ price }}').render!(drops.new) }
  same('one as a whole', /\ABikleinu::DataError: InvalidInput: a: a value of the class #</) { template('{{ a }}').render(a: drops.new) }
end

report
