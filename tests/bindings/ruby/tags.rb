# frozen_string_literal: true

require_relative 'checks'

extend Checks

def environment(**options)
  Bikleinu::Environment.new(**options).register_tag('link') { |path, text = 'here'| "[#{text}](#{path})" }
                       .register_block('box') { |body, *values| "<#{values.join(',')}|#{body}>" }
                       .register_tag(:now, ->(markup = '') { "now #{markup.inspect}" }, style: :text)
                       .register_tag('inc', style: :path) { |path, *values| "#{path}#{values}" }
end

made = environment(partials: { 'p' => '{% box 1 %}{{ x }}{% endbox %}' })
{
  "{% link 'a' %}{% link b.c 'B' %}" => '[here](a)[B](7)',
  "{% box 1, b.c %}{% link 'x', 'y' %}{% box %}{{ b.c }}{% endbox what ever %}{% endbox %}" => '<1,7|[y](x)<|7>>',
  "{%- now -%} | {% now in 'Paris', 5%} | {%now%}" => %q(now ""| now "in 'Paris', 5" | now ""),
  "{% inc a/b.html 1, 'c' %}" => 'a/b.html[1, "c"]',
  '{% box %}{% render "p", x: 3 %}{% endbox %}' => '<|<1|3>>'
}.each { |source, text| same(source, text) { made.parse(source).render!('b' => { 'c' => 7 }) } }

# What a source gets wrong of a tag is said at its place.
{
  'a{% box %}b' => /\ABikleinu::SyntaxError: MissingEnd: line 1, column 2: .*endbox/,
  '{% link %}' => /\ABikleinu::SyntaxError: FilterArguments: line 1, column 1: `link` takes at least 1/,
  '{% link 1 2 3 %}' => /\ABikleinu::SyntaxError: FilterArguments: line 1, column 1: `link` takes at most 2/,
  '{% link 1' => /\ABikleinu::SyntaxError: Unclosed/,
  "{{ 'a' | link }}" => /\ABikleinu::SyntaxError: UnknownFilter/
}.each { |source, wanted| same(source, wanted) { made.parse(source) } }

# What a function raises ends the page at the tag, and isn't kept.
fails = true
made.register_tag('fails') { fails ? raise(KeyError, 'no tea') : 'tea' }
template = made.parse('a{% fails %}b')
page = template.page
same('the page up to it', ['a', :invalid_input, 2, '`{% fails %}`: KeyError: no tea', KeyError]) do
  [page.text, page.fault.kind, page.fault.column, page.fault.reason, page.fault.cause.class]
end
fails = false
same('the next page', 'ateab') { template.render! }
same('a block in place of a tag', 'a<b>') { made.register_block('fails') { |body| "<#{body}>" }.parse('a{% fails %}b{% endfails %}').render! }

# Names and functions that no tag has.
{ 'a b' => :no_word, 'endless' => :reserved_name, 'if' => :taken_name }.each do |name, kind|
  same(name, kind) do
    made.register_tag(name) { 'x' }
  rescue Bikleinu::Error => e
    e.kind unless e.reason.empty?
  end
end
same('a name', /\AEncodingError: a tag's name isn't UTF-8/) { made.register_tag("\xff") { |it| it } }
same('a style', /\AArgumentError: style: is :words, and :items, :path or :text is wanted/) { made.register_tag('x', style: :words) { 'x' } }
same('no function', 'ArgumentError: the tag `x` has no function') { made.register_tag('x') }
same('a class', 'TypeError: the tag `x` is a value of the class Class') { made.register_tag('x', Class.new) }
same('a block without its text', /\AArgumentError: the tag `x` takes its input/) { made.register_block('x') { 'x' } }

# Values that a function is given by keywords: nil where the data have nothing there, which is no fault.
given_tags = Bikleinu::Environment.new.register_tag('about', given: { title: 'page.title', 'name' => 'site.author' }) do |*values, title:, name:|
  "#{values} #{title} #{name.inspect}"
end
given_tags.register_block('frame', ->(body, word = '-', name:) { "#{name}#{word}#{body}" }, given: { name: 'site.name' })
same('given values', '[] T nil|["x", 2] T nil|-b') do
  given_tags.parse("{% about %}|{% about 'x', 2 %}|{% frame %}b{% endframe %}").render!('page' => { 'title' => 'T', 'text' => -> { raise 'not asked' } })
end
same('their paths', ['page.title', 'site.author', 'site.name']) { given_tags.parse('{% about %}{% frame %}{% endframe %}').paths }
same('too many values', /FilterArguments/) { given_tags.parse('{% frame 1 2 %}{% endframe %}') }
same('a keyword that nobody gives', /\AArgumentError: the tag `x`/) { given_tags.register_tag('x') { |title:| title } }
same('no Hash', 'TypeError: given: is a Hash, not a value of the class String') { given_tags.register_tag('x', given: 'a') { 'x' } }
same('two values', /\AArgumentError: the given value :a is one value/) { given_tags.register_tag('x', given: { a: 'b, c' }) { |a:| a } }
same('a value that is none', :no_values) do
  given_tags.register_tag('x', given: { a: 'b c' }) { |a:| a }
rescue Bikleinu::Error => e
  e.kind unless e.reason.empty?
end

code = '<figure class="highlight"><pre><code class="language-ruby" data-lang="ruby">&lt;1&gt;</code></pre></figure>'
same("Jekyll's highlight", code) { template('{% highlight ruby %} <{{ n }}> {% endhighlight %}', jekyll: true).render!(n: 1) }
same('none elsewhere', /UnknownTag/) { template('{% highlight ruby %}{% endhighlight %}') }
Bikleinu::Template.register_tag('hi') { 'Hi' }
Bikleinu::Template.register_block('loud') { |body| "#{body}!" }
same('of all templates', 'Hi!') { Bikleinu::Template.parse('{% loud %}{% hi %}{% endloud %}').render! }

report
