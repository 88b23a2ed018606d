# frozen_string_literal: true

require_relative 'checks'
require 'tmpdir'
require 'stringio'

extend Checks

# A file system as Liquid's, which counts what it is asked.
class Files
  attr_reader :asked

  def initialize(sources)
    @sources = sources
    @asked = []
  end

  def read_template_file(name)
    @asked << name
    @sources.fetch(name)
  end
end

def nested(count, inside = '')
  ('{% if true %}' * count) + inside + ('{% endif %}' * count)
end

# What a block writes to the standard error.
def warned
  before = $stderr
  $stderr = StringIO.new
  yield
  $stderr.string
ensure
  $stderr = before
end

made = Bikleinu::Environment.new(partials: { 'end' => "{{ n }}{% render 'deep' %}", 'deep' => '!' }, decimals: :text, depth: 1, bytes: 5)
template = made.parse("{{ n }}:{% include 'end' %}")
same('partials', '1.5!') { made.parse("{{ n }}{% render 'deep' %}").render!(n: 1.5) }
same('depth', :too_deep) { template.page(n: 1).fault.kind }
same('depth of a call', '1:1!') { template.render!({ n: 1 }, depth: 2) }
same('bytes', ['100:', :bytes_reached, Bikleinu::LimitError]) do
  page = template.page({ n: 100 }, depth: 2)
  [page.text, page.fault.kind, page.fault.class]
end
same('turns', :turns_reached) { made.parse('{% for i in (1..9) %}{% endfor %}').page({}, turns: 3).fault.kind }
same('a partial as a template', '!') { made.template('deep').render! }
same('one that is not there', 'KeyError: no partial is named "dep"') { made.template('dep') }
same('a fault in a partial', ['end', 1, 4, 'in the partial `end`: line 1, column 4']) do
  fault = made.parse("{% include 'end' %}").page.fault
  [fault.partial, fault.line, fault.column, fault.place]
end
same('a refused partial', /\ABikleinu::SyntaxError: UnknownTag: in the partial `p`: line 2/) do
  Bikleinu::Environment.new(partials: { 'p' => "\n{% nope %}" }).parse('')
end
same('inserted', '?') { made.insert('deep', '?').template('deep').render! }
same('a template from before', '?') { made.parse("{% render 'deep' %}").render! }
same('data that are read once', %w[1 3 1-2-3]) do
  data = made.data('n' => [1, 2, 3])
  ['{{ n[0] }}', '{{ n.last }}', "{{ n | join: '-' }}"].map { |source| made.parse(source).render!(data, bytes: 10) }
end
same('data for a template', ['2;', :other_paths]) do
  template = made.parse('{% for l in ls %}{{ l.n }};{% endfor %}')
  data = template.data('{"ls": [{"n": 2, "of": "Assam"}], "m": 7}')
  [template.render!(data), made.parse('{{ m }}').page(data).fault.kind]
end
same('keys of what is seen', [true, true, false, '2;']) do
  template = made.parse('{% for l in ls %}{{ l.n }};{% endfor %}')
  key = template.seen_key(ls: [{ n: 2, of: 'Assam' }], m: 7)
  [key == template.seen_key('{"ls": [{"n": 2}]}'), key == template.seen_key(ls: [{ n: 2 }]), key == template.seen_key(ls: [{ n: 3 }]), template.render!(key)]
end
same('no key of Data', /\ATypeError: a key is of a Hash or of a text of JSON/) { made.parse('{{ m }}').seen_key(made.data(m: 1)) }
same('no key of a fraction', /\ABikleinu::DataError: Float/) { template('{{ m }}').seen_key('{"m": 1.5}') }
same('names', %w[a b c forloop]) { template('{{ a }}{% for c in b %}{% endfor %}').names }
same('paths', ['a.b', 'c?']) { template('{{ a.b }}{% if c %}{% endif %}').paths }
same('a SyntaxError', [:unknown_filter, 27, 2, 8, nil]) do
  template("a\n{{ b | nope }}")
rescue Bikleinu::SyntaxError => e
  [e.kind, e.number, e.line, e.column, e.partial]
end
same('Jekyll', '[b]') { template("{% include card.html a='b' %}", jekyll: true, partials: { 'card.html' => '[{{ include.a }}]' }).render! }

# What the data lack is a fault, or nil.
lenient = Bikleinu::Environment.new(partials: { 'end' => '{{ who.name }}.' }, missing: :nil)
template = lenient.parse("{{ a.b }}|{% for r in rows %}{{ r.x }};{% endfor %}{% render 'end', who: who %}")
rows = { 'rows' => [{ 'x' => 1 }, {}] }
same('what is missing', ['|1;;.', '2|1;;Ada.']) { [template.render!(rows), template.render!({ a: { b: 2 }, who: { name: 'Ada' } }.merge(rows))] }
same('in JSON', '|1;;.') { template.render!('{"rows": [{"x": 1}, {}]}') }
same('in data for the template', '|1;;.') { template.render!(template.data(rows)) }
same('as a fault', :unknown_variable) { template.page(rows, missing: :fault).fault.kind }
same('in a call', '[]') { Bikleinu::Template.parse('[{{ a.b.c }}]').render!({ a: {} }, missing: :nil) }
same('with filters', '[a!]') { Bikleinu::Environment.new(missing: :nil, filters: { f: ->(it) { "#{it}a!" } }).parse('[{{ b.c | f }}]').render! }

# Arguments that can't be.
same('nil', 'TypeError: a source is a String, not nil') { template(nil) }
same('a number', 'TypeError: a source is a String, not a value of the class Integer') { template(3) }
same('no UTF-8', "EncodingError: a source isn't UTF-8: line 2 has another byte") { template("a\n\xff") }
same('another encoding', "\u{e9}") { template("\xe9".dup.force_encoding('ISO-8859-1')).render! }
same('half of a pair', /\AEncodingError: a source can't be made UTF-8/) { template("\xd8\x00".dup.force_encoding('UTF-16BE')) }
same('options', /\AArgumentError: unknown option: :strict; known are/) { template('').render({}, strict: true) }
same("options of Liquid's", ['[]', :unknown_variable, :unknown_variable, '[]']) do
  made = Bikleinu::Template.parse('[{{ a }}]', line_numbers: true, error_mode: :strict)
  lenient = template('[{{ a }}]', missing: :nil)
  [made.render({}, strict_variables: false), made.page({}, strict_filters: true).fault.kind,
   lenient.page({}, strict_variables: true).fault.kind, lenient.render({}, strict_filters: true)]
end
same('a lax mode', /\AArgumentError: error_mode is :lax/) { Bikleinu::Template.parse('', error_mode: :lax) }
same('lax filters', /\AArgumentError: strict_filters is false/) { template('').render({}, strict_filters: false) }
same('filters of a call', /\AArgumentError: unknown option: :filters; .*register_filter/) { template('').render({}, filters: []) }
same('registers', /\AArgumentError: unknown option: :registers; /) { template('').render({}, registers: {}) }
same('no options', /\ATypeError: options are a Hash/) { template('').render({}, 3) }
same('missing', /\AArgumentError: missing is :error, and :fault or :nil is wanted/) { template('').render({}, missing: :error) }
same('below 0', /\ARangeError: bytes is -1/) { template('').render({}, bytes: -1) }
same('too many', /\ARangeError: depth is 4294967296/) { template('').render({}, depth: 2**32) }
same('no levels', /\ARangeError: levels is 0/) { template('', levels: 0) }
same('a float', /\ATypeError: turns is an Integer/) { template('', turns: 1.5) }
same('decimals', /\AArgumentError: decimals is :float/) { template('', decimals: :float) }
same('times', /\AArgumentError: times is "UTC"/) { template('', times: 'UTC') }
same('partials of another kind', /\ATypeError: partials are a Hash/) { template('', partials: ['p']) }
same('copies', /\ATypeError: a Template can be shared/) { template('').dup }
same('marshalled', /\ATypeError: no _dump_data is defined/) { Marshal.dump(template('')) }

# A file system is asked once for each name that a page comes to, and for those that stand in its sources.
files = Files.new('a' => "<{% include 'b' %}>", 'b' => 'b{{ x }}', 'dyn' => 'd')
made = Bikleinu::Environment.new(partials: files)
template = made.parse("{% if n %}{% include n %}{% endif %}{% include 'a' %}")
same('partials by name', ['<b1>', 'd<b1>', '<b2>']) do
  [template.render!(x: 1, n: nil), template.render!(x: 1, n: 'dyn'), template.render!(x: 2, n: nil)]
end
same('asked', %w[a b dyn]) { files.asked.sort }
same('one that it lacks', [Bikleinu::FileSystemError, KeyError, %w[a b dyn nope]]) do
  faults = Array.new(2) { made.parse("{% include 'nope' %}").page.fault }
  [faults[1].class, faults[1].cause.class, files.asked.sort]
end

files = Files.new('a' => "<{% if x %}{% include 'bad' %}{% endif %}>", 'bad' => '{% nope %}')
made = Bikleinu::Environment.new(partials: files)
template = made.parse("{% include 'a' %}")
same('a refused one that no page comes to', '<>') { template.render!(x: nil) }
same('and one that comes to it', /\ABikleinu::SyntaxError: UnknownTag: in the partial `bad`: line 1/) { template.render!(x: 1) }
same('the page after it', '<>') { template.render!(x: nil) }

# The files of a folder.
Dir.mktmpdir do |room|
  Dir.mkdir("#{room}/parts")
  Dir.mkdir("#{room}/.git")
  { 'a.liquid' => '1', 'a' => '2', 'b.html.liquid' => '3', 'parts/line.liquid' => "{{ x }}\r\n", 'parts/.hidden' => '{% nope %}', '.git/x' => '{%',
    'image' => "\x89\0" }.each { |path, text| File.binwrite("#{room}/#{path}", text) }
  File.symlink("#{room}/parts", "#{room}/link")
  File.symlink("#{room}/a", "#{room}/c")
  File.symlink('/etc/passwd', "#{room}/out")
  File.symlink("#{room}/nothing", "#{room}/dead")
  source = "{% include 'a' %}{% include 'a.liquid' %}{% include 'b.html' %}{% render 'parts/line', x: 7 %}{% render 'c' %}"
  lines = ["#{room}/dead is a link that leads nowhere", "#{room}/image is no text: it has a byte 0",
           "#{room}/out is a link that leads out of the folder"]
  same('a folder', "2137\r\n2") { warned { made = Bikleinu::Environment.new(partials: room).parse(source) } && made.render! }
  same('what is left out', lines.map { |it| "left out: #{it}\n" }) { warned { Bikleinu::Environment.new(partials: room).parse('') }.lines.sort }
  same('no folder', /\AErrno::ENOENT/) { Bikleinu::Environment.new(partials: "#{room}/none").parse('') }
  same('a file', /\AErrno::ENOTDIR/) { Bikleinu::Environment.new(partials: "#{room}/a").parse('') }
  File.binwrite("#{room}/b.html.liquid", "one\ntwo\xff")
  same('a file that is not UTF-8', /\AEncodingError: the file .*b.html.liquid" isn't UTF-8: line 2/) do
    warned do
      Bikleinu::Environment.new(partials: room).parse('')
    end && ''
  end
end

# Deep runs, in threads and fibers of small stacks.
deep = Bikleinu::Environment.new(partials: { 'p' => nested(90, "{% render 'p' %}") })
shallow = Bikleinu::Environment.new(partials: { 'p' => nested(90, 'x') })
same('too many levels', ['', :too_many_levels, Bikleinu::StackLevelError]) do
  page = deep.parse("{% render 'p' %}").page(nil, depth: 30)
  [page.text, page.fault.kind, page.fault.class]
end
many = -> { [deep.parse("{% render 'p' %}").page(nil, depth: 30, levels: 4000).fault.kind, shallow.parse("{% render 'p' %}").render!(nil, depth: 4)] }
same('many levels', [:too_deep, 'x'], &many)
same('any number of levels', :too_deep) { deep.parse("{% render 'p' %}").page(nil, depth: 900, levels: (2**32) - 1).fault.kind }
same('in a thread', [:too_deep, 'x']) { Thread.new(&many).value }
same('in a fiber', [:too_deep, 'x']) { Fiber.new(&many).resume }
call = ->(levels) { levels.zero? ? many.call : call.call(levels - 1) }
same('deep in calls', [:too_deep, 'x']) { call.call(2000) }
same('parsed where little is left', 'SystemStackError') do
  again = -> { template(nested(20)).render! && again.call }
  again.call
rescue SystemStackError => e
  e.class.name
end

# Threads, processes and ractors.
shared = Bikleinu::Environment.new(partials: { 'end' => '{{ n | plus: 1 }}!' })
template = shared.parse("{{ n }}{% render 'end', n: n %}{{ who }}")
data = shared.data(n: 3, who: 'Ada')
threads = (0...8).map do |number|
  Thread.new { Array.new(300) { [template.render!(data), template.render!(n: number, who: 'Bob')] }.uniq }
end
20.times { |at| shared.insert("more#{at}", '{{ n }}') }
same('eight threads', (0...8).map { |number| [['34!Ada', "#{number}#{number + 1}!Bob"]] }) { threads.map(&:value) }
same('the last one', '7') { shared.parse("{% render 'more19', n: 7 %}").render! }
long = Bikleinu::Template.parse('{% for i in (1..100000) %}{{ i | times: 2 }}{% endfor %}')
same('other threads run', true) do
  turns = 0
  counting = Thread.new { loop { turns += 1 } }
  Thread.pass until turns.positive?
  before = turns
  5.times { long.render! }
  (turns > before + 1000).tap { counting.kill }
end
same('a thread that is killed', '34!Ada') do
  threads = (0...8).map { Thread.new { loop { template.render!(data) && long.render! } } }
  sleep 0.05
  threads.each(&:kill).each(&:join)
  template.render!(data)
end
same('a process of its own', '34!Ada') do
  running = Thread.new { loop { template.render!(data) } }
  read, write = IO.pipe
  child = fork { write.puts(template.render!(data)) || exit!(0) }
  Process.wait(child)
  running.kill
  read.gets.chomp
end
Warning[:experimental] = false
same('a ractor', 'Ractor::UnsafeError: Bikleinu works in the main Ractor alone: send the data to it') do
  Ractor.new do
    Bikleinu::Template.parse('x').render
  rescue Ractor::Error => e
    "#{e.class}: #{e.message}"
  end.take
end
same('an environment in a ractor', /\ARactor::UnsafeError: /) do
  Ractor.new do
    Bikleinu::Environment.new.parse('x').render
  rescue Ractor::Error => e
    "#{e.class}: #{e.message}"
  end.take
end

report
