# frozen_string_literal: true

# Hostile callers and templates: ruby strangers.rb [COUNT [SEED]]. So many calls with arguments that are made at random, of every class, among
# them objects whose methods raise, throw, change what is being read or call this library again. Each ends by a value or an error of Ruby's
# or this library's; that the interpreter lives is what is tested. Over plain data the page of a Hash is also that of its JSON.
require_relative 'checks'
require 'timeout'
require 'json'

extend Checks

COUNT = (ARGV[0] || 3000).to_i
SEED = (ARGV[1] || 7).to_i
RANDOM = Random.new(SEED)

# An object whose methods do something else each time.
class Odd
  def to_liquid
    Strange.value(2)
  end

  def key?(_name)
    [true, false, nil].sample(random: RANDOM)
  end

  def [](_name)
    Strange.act
  end

  def each
    yield Strange.value(2)
    Strange.act
  end

  def to_a
    [Strange.value(1)]
  end

  def to_h
    { Strange.value(0) => 1 }
  end

  def to_str
    Strange.act.to_s
  end

  def call(*_given)
    Strange.act
  end

  def read_template_file(_name)
    Strange.source
  end
end

# Values and sources at random.
module Strange
  WORDS = ['{{', '}}', '{%', '%}', 'if', 'for', 'a', 'in', 'b', 'endif', 'endfor', '|', 'odd', 'size', '.', '[', ']', '0', '-1',
           "'x'", 'assign', '=', 'include', "'p'", 'render', "\u{e9}", "\n", 'capture', 'endcapture', '(1..3)', 'case', 'when', 'c.d',
           'first', 'join', ':', ','].freeze
  SOURCES = ['{{ a }}', '{{ a.b | odd }}', "{% include 'p' %}", '{% for x in a %}{{ x.b }}{{ x | odd: 1 }}{% endfor %}',
             '{{ b.size }}{{ a.first.c }}', "{% render 'p', a: b %}", '{% if a == b %}{{ c }}{% endif %}',
             '{{ a | where: "b", 1 | map: "c" | join }}', '{{ a[b] }}{{ a["b"].c }}'].freeze
  SCALARS = [nil, true, false, 0, -1, 2**63, -(2**64), 1.5, Float::NAN, '', 'a', "\xff", "\u{e9}".encode('UTF-16LE'), "\0".b, :a,
             :é, Object.new, Class, 1..3, 2r, 1i, Time.at(0), ->(it) { it }, -> { 3 }, $stdout, ENV, Random, /a/].freeze

  module_function

  def pick(list)
    list[RANDOM.rand(list.length)]
  end

  def value(levels = 3)
    case RANDOM.rand(levels.positive? ? 9 : 3)
    when 3 then Array.new(RANDOM.rand(4)) { value(levels - 1) }
    when 4, 5 then Array.new(RANDOM.rand(4)) { [pick(%w[a b c d size first]), value(levels - 1)] }.to_h
    when 6 then Odd.new
    when 7 then { value(0) => value(levels - 1) }
    when 8 then [].tap { |list| list << list << value(0) }
    else pick(SCALARS)
    end
  end

  def plain(levels = 3)
    case RANDOM.rand(levels.positive? ? 7 : 3)
    when 3, 4 then Array.new(RANDOM.rand(4)) { plain(levels - 1) }
    when 5, 6 then Array.new(RANDOM.rand(5)) { [pick(%w[a b c d size first last]), plain(levels - 1)] }.to_h
    else pick([nil, true, 0, 3, 'x', "\u{e9}\"", ''])
    end
  end

  def source
    RANDOM.rand(4).zero? ? Array.new(RANDOM.rand(12)) { pick(WORDS) }.join(' ') : Array.new(1 + RANDOM.rand(3)) { pick(SOURCES) }.join
  end

  # What a method of a strange object does.
  def act
    case RANDOM.rand(12)
    when 0 then raise pick([KeyError, NotImplementedError, StopIteration, NoMemoryError, Bikleinu::Error]), 'odd'
    when 1 then throw :out
    when 2 then GC.start
    when 3 then SHARED.parse(source).page({ 'a' => value(1) }, turns: 50)
    when 4 then Fiber.new { Bikleinu::Template.parse(source).page({ 'a' => plain(1) }, turns: 50) }.resume
    else value(1)
    end
  end

  def options
    pick([nil, {}, { turns: 100 }, { bytes: 10 }, { levels: 3 }, { depth: 0 }, { missing: :nil }, { depth: value(0) }, value(1)])
  end
end

SHARED = Bikleinu::Environment.new(partials: { 'p' => '{{ a.b }}' }, filters: { 'odd' => Odd.new }, turns: 1000, depth: 3, decimals: :text)
TEMPLATES = [SHARED.parse('{{ a }}')] # rubocop:disable Style/MutableConstant
ACTS = [
  -> { TEMPLATES.push(SHARED.parse(Strange.source)).length > 50 && TEMPLATES.shift },
  -> { Strange.pick(TEMPLATES).page(Strange.value, Strange.options) },
  -> { Strange.pick(TEMPLATES).page({ 'a' => Strange.value, b: Strange.value }, Strange.options) },
  -> { Strange.pick(TEMPLATES).render(Strange.value, turns: 100) },
  -> { Strange.pick(TEMPLATES).render!({ 'a' => Strange.plain, 'b' => Strange.plain }, turns: 100) },
  -> { Bikleinu::Template.parse(Strange.value) },
  -> { Strange.pick(TEMPLATES).data(Strange.value) },
  -> { SHARED.data(Strange.value).handle },
  -> { Bikleinu::Data.new(Strange.value, decimals: Strange.value(0), times: Strange.value(0)) },
  -> { SHARED.insert(Strange.pick(%w[p q]), Strange.source) },
  -> { SHARED.insert(Strange.value(1), Strange.value(1)) },
  -> { Bikleinu::Environment.new(partials: Odd.new, turns: 100, missing: :nil).parse(Strange.source).page({ 'a' => Strange.value(1) }) },
  -> { Bikleinu::Environment.new(partials: Strange.value(1)).parse(Strange.source).page(nil, turns: 50) },
  -> { Bikleinu::Environment.new(filters: Strange.value(1), depth: Strange.value(0)) },
  -> { SHARED.filter(Strange.value(0), Strange.value(0)) },
  -> { Strange.pick(TEMPLATES).names && Strange.pick(TEMPLATES).paths },
  -> { Thread.new { Strange.pick(TEMPLATES).page({ 'a' => Strange.plain }, turns: 50) }.join(1) },
  -> { Timeout.timeout(0.001) { Strange.pick(TEMPLATES).page({ 'a' => Array.new(300) { Strange.plain(1) } }) } },
  -> { Strange.pick(TEMPLATES).dup },
  -> { Marshal.dump(Strange.pick(TEMPLATES)) }
].freeze

# Whether the page of a Hash is that of its JSON, and of the data that its template reads.
def alike
  data = Strange.plain(4)
  data = { 'a' => data, 'b' => Strange.plain } unless data.is_a?(Hash)
  template = Bikleinu::Environment.new(partials: { 'p' => '{{ a.b.first }}{{ b.size }}' }, depth: 3, turns: 1000).parse(Strange.source)
  pages = [data, JSON.generate(data), template.data(data)].map { |it| template.page(it) }.map { |it| [it.text, it.fault&.kind] }
  pages.uniq.length == 1 || [template.source, data, pages]
rescue Bikleinu::SyntaxError
  true
end

Thread.report_on_exception = false
wrong = []
COUNT.times do |at|
  catch(:out) do
    found = alike
    wrong << found unless found == true
    GC.stress = (at % 500).zero?
    ACTS[RANDOM.rand(ACTS.length)].call
  rescue StandardError, ScriptError, NoMemoryError, SystemStackError
    next
  ensure
    GC.stress = false
  end
end
same("#{COUNT} calls", []) { wrong.first(3) }
same('the page after them', 'Hello Ada!') { Bikleinu::Template.parse('Hello {{ name }}!').render!(name: 'Ada') }

report
