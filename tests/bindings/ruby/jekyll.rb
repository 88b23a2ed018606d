# frozen_string_literal: true

require_relative 'checks'
require 'tmpdir'
require 'fileutils'
require 'stringio'

extend Checks

begin
  gem 'jekyll', '>= 4.3'
  require 'jekyll'
rescue LoadError
  puts "bindings: this machine hasn't Debian's jekyll, so the plugin isn't tested"
  report
  exit
end

SITE = {
  '_layouts/default.html' => "<title>{{ page.title | escape }}</title>{% include nav/head.html active='b' %}\n{{ content }}",
  '_layouts/post.html' => "---\nlayout: default\n---\n<time>{{ page.date | date_to_xmlschema }}</time>{{ content }}" \
                          '{% unless page.nothing.at.all %}!{% endunless %}',
  '_includes/nav/head.html' => '<nav>{{ include.active }} {{ site.posts.size }} {{ "/a b" | relative_url }}</nav>',
  '_includes/odd.html' => "{% assign x = '' %}{% if x == empty %}odd{% endif %}",
  '_data/teas.yml' => "- name: Assam\n  price: 2.5\n- name: Sencha\n",
  '_posts/2024-01-02-one.md' => "---\nlayout: post\ntitle: One & all\ntags: [a, b]\n---\n{% highlight ruby %}\nx < 1\n{% endhighlight %}\n\n" \
                                "{{ page.tags | join: ', ' }}\n",
  '_posts/2024-01-03-two.md' => "---\nlayout: post\ntitle: Two\n---\n[one]({% post_url 2024-01-02-one %})\n",
  'index.html' => "---\nlayout: default\ntitle: Home\n---\n" \
                  "{% for post in site.posts %}{{ post.title }} {{ post.url | absolute_url }};{% endfor %}\n" \
                  "{% for tea in site.data.teas %}{{ tea.name }} {{ tea.price | default: '-' }} {% endfor %}\n" \
                  "{% assign one = site.data.teas | where_exp: 't', 't.name == \"Assam\"' %}{{ one.first.price }}{% raw %}{% seo %}{% endraw %}\n",
  'odd.html' => "---\nlayout: default\ntitle: Odd\n---\n{% include odd.html %}",
  'sample.html' => "---\ntitle: Sample\n---\n{{ site.data.teas | slice: 0, 1 | sample | map: 'name' }}",
  'set.html' => "---\ntitle: Set\n---\n{% assign page = site.data %}{{ page.teas[0].name }}",
  'blank.html' => "---\ntitle: Blank\n---\n{% for post in site.posts %}\n {% if post.title %} {% assign last = post %} {% else %} {% endif %}\n" \
                  '{% comment %} no {% endcomment %} {% endfor %}|{% if page.title %} {% capture x %} {% if last %} {% endif %} {% endcapture %}' \
                  "{% endif %}[{{ x }}]{% case page.title %} {% when 'Blank' %} {% unless x %} {% endunless %} {% when 'B' %} {% endcase %}|" \
                  "{% if last %} {% increment n %} {% endif %}{% for a in site.none %} {% else %} {% cycle 'a' %} {% endfor %}|" \
                  "{% if page.none %}x{% elsif last %} {% assign y = x %} {% endif %}{% if page.none %} {% elsif last %} {% endif %}|\n",
  'page.html' => "---\ntitle: Page\n---\n{{ site.posts | where_exp: 'p', 'p.title == page.title' | size }}"
}.freeze

# A site that is built in a folder, with the options of the plugin; what its pages are, and what was reported.
def built(room, options, files = SITE)
  require 'jekyll-bikleinu' if options
  files.each do |path, text|
    FileUtils.mkdir_p(File.dirname("#{room}/#{path}"))
    File.write("#{room}/#{path}", text)
  end
  how = { 'source' => room, 'destination' => "#{room}/_site", 'url' => 'http://x.org', 'baseurl' => '/blog', 'quiet' => true, 'timezone' => 'UTC',
          'disable_disk_cache' => true, 'collections' => { 'teas' => {} }, 'bikleinu' => options || {} }
  site = Jekyll::Site.new(Jekyll.configuration(how))
  site.process
  pages = Dir["#{room}/_site/**/*.html"].to_h { |path| [path.delete_prefix("#{room}/_site/"), File.read(path)] }
  [pages, options ? JekyllBikleinu.engine(site).counts : {}]
end

Jekyll.logger.log_level = :error
plain, = Dir.mktmpdir { |room| built(room, nil) }
own, counts = Dir.mktmpdir { |room| built(room, {}) }
same('pages', plain) { own }
same('those of this engine, and of Liquid', [10, 4]) { counts.values_at(:own, :others) }
_, counts = Dir.mktmpdir { |room| built(room, { 'verify' => true }) }
same('compared', [10, 4, 0]) { counts.values_at(:own, :others, :differing) }
# The same with Jekyll's filters as this engine has them, but for one that a plugin has another of.
PROVED = SITE.merge(
  'all.html' => "---\ntitle: All & more\nlist: [b, a]\n---\n{{ page.title | xml_escape }} {{ page.title | cgi_escape }} " \
                "{{ page.title | uri_escape }} {{ page.list | jsonify }} {{ page.list | array_to_sentence_string: 'or' }} " \
                "{{ ' a  b ' | normalize_whitespace }} {{ 'a b' | number_of_words }} {{ '12 km' | to_integer }} " \
                "{{ '/a b' | absolute_url }} {{ site.data.teas | where: 'name', 'Assam' | size }} " \
                "{% assign tea = site.data.teas | find: 'name', 'Sencha' %}{{ tea.name }} " \
                "{% assign all = site.data.teas | group_by: 'name' %}{{ all[0].name }} {{ all.size }}",
  '_plugins/own.rb' => "module OwnCount\n  def number_of_words(_text)\n    'own'\n  end\nend\nLiquid::Template.register_filter(OwnCount)\n"
).freeze
same("the engine's filters", [11, 4, 0]) do
  Dir.mktmpdir { |room| built(room, { 'filters' => 'proved', 'verify' => true }, PROVED) }[1].values_at(:own, :others, :differing)
end
same("pages of the engine's filters", true) do
  pages, = Dir.mktmpdir { |room| built(room, { 'filters' => 'proved' }, PROVED) }
  pages['all.html'].include?('own')
end
same('other filters', 'ArgumentError: bikleinu: filters is "own", and proved or nothing is wanted') do
  Dir.mktmpdir { |room| built(room, { 'filters' => 'own' }) }
end
same('strict', /\ABikleinu::SyntaxError: StateWord/) do
  $stderr = StringIO.new
  Dir.mktmpdir { |room| built(room, { 'strict' => true }) }
ensure
  $stderr = STDERR
end

# A near plan in short: nil for a whole value, and else the plan of items, the members, and whether all else is there, and texts are lists.
def short(plan)
  return plan if plan.nil? || plan == true || plan == false
  return :rest if plan.equal?(plan[0])

  [short(plan[0]), plan[1].each_slice(4).to_h { |name, _, _, inner| [name, short(inner)] }, *(:all if plan[3]), *(:texts if plan[4])]
end

# Paths, near ones and looped ones, and the plan.
[
  [%w[a b.c], %w[b], [], { 'a' => :rest, 'b' => [false, { 'c' => nil }] }],
  [%w[a], %w[a[].b a[].c? a[].d[]], %w[a[].d[]],
   { 'a' => [[:rest, { 'b' => nil, 'c' => [:rest, {}, :all], 'd' => [nil, {}, :all, :texts] }, :all], {}, :all, :texts] }],
  [%w[a.b.c[] d.e[].f g[].h], %w[a d.e[].f g[]], %w[a d.e[].f g[]],
   { 'a' => [false, { 'b' => [false, { 'c' => [nil, {}] }] }], 'd' => [false, { 'e' => [[false, { 'f' => nil }], {}, :texts] }],
     'g' => [[false, { 'h' => nil }], {}, :texts] }],
  [%w[a[] b[]? c[] d[] e.first], %w[a[] b[] c[] d[] e.first], %w[a[] b[] c d[] d? e.first],
   { 'a' => [nil, {}, :texts], 'b' => [[false, {}], {}, :texts], 'c' => [nil, {}], 'd' => [nil, {}], 'e' => [nil, { 'first' => nil }] }]
].each do |paths, near, looped, wanted|
  same("a near plan of #{paths}", wanted) { short(Bikleinu.const_get(:NearPlan).of(paths, near, looped))[1] }
end

# Templates that this engine renders as Liquid does, with includes: posts that are passed on, and texts that are looped over.
PARTS = {
  'post.html' => '<{{ include.post.title }} {{ include.post.url }} {{ include.post.size }} {{ include.post.previous.title }}>',
  'all.html' => '{% for it in include.posts %}{% include post.html post=it %}{% include inner.html %}{% endfor %}',
  'inner.html' => '[{{ include.posts.size }}{{ include.post.title }}]',
  'same.html' => '{% for it in include.posts %}{% if it == include.one %}={% endif %}{% unless include.one != it %}!{% endunless %}{% endfor %}',
  'again.html' => '{{ include.n }}{% if include.n == 1 %}{% include again.html n=2 post=include.post %}{% endif %}{{ include.post.title }}',
  'of.html' => '{% for it in include.in.posts %}{{ it.title }}{% endfor %}{% for it in include.in.teas %}{{ it.title }}{% endfor %}',
  'hyphens.html' => '{{ include.no-post.title | default: "include" }}{{ include.a-post.title }}',
  'deep.html' => "#{'{% if true %}' * 6}{% include inner.html post=include.post %}#{'{% endif %}' * 6}",
  'list.html' => '{% for it in include.list %}({{ it }}){% else %}none{% endfor %}'
}.freeze
POSTS = '{% for it in site.posts %}'
WHO = '{% for it in page.who %}({{ it }}){% else %}none{% endfor %}'
OWN = [
  "#{POSTS}{% include post.html post=it %}{% endfor %}{% comment %}{{ include }}{% endcomment %}{% raw %}{{ include }}{% endraw %}",
  '{% include all.html posts=site.posts %}{% include again.html n=1 post=site.posts.first %}{% include of.html in=site %}',
  '{% assign last = site.posts.last %}{% include same.html posts=site.posts one=last %}{% include same.html posts=site.teas one=last %}',
  '{% include hyphens.html a-post=site.posts.first %}{% include deep.html post=site.posts.last %}',
  "#{WHO}{% if page.who %}!{% endif %}{% for it in page.who reversed %}{{ forloop.length }}{% endfor %}",
  "{% for n in (1..2) %}{%- highlight ruby linenos -%}\n{{ n }} < {{ page.title }}{{ '&' }}\n{%- endhighlight x -%} |{% endfor %}" \
  "{% link _posts/2024-01-02-one.md %}{% post_url 2024-01-03-two %}{%- highlight c++ %}{% raw %}{{ '\"}}{% endraw %}{% endhighlight %}",
  "{% assign all = page.who %}{% for it in all %}{{ site.data.teas[it].name }}{% endfor %}{% if page.title == 'x' or all %}!{% endif %}",
  '{% include list.html list=page.who %}{% for row in page.rows %}{% for it in row.all %}({{ it }}){% endfor %}{% endfor %}'
].freeze
# What an include and a page may ask for besides, with which the page is Liquid's.
OF_POSTS = [
  '{{ include.post }}', "{{ include.post | append: 'x' | size }}", '{% for it in include.post %}{{ it[0] }}{% endfor %}',
  '{{ include.post | jsonify }}',
  "{% assign name = 'prev' | append: 'ious' %}{{ include.post[name].title }}", '{{ include.post.first }}',
  "{% if include.post contains 'x' %}!{% endif %}", '{% cycle include.post, 1 %}', '{% assign all = include %}{{ all.post.title }}',
  "{{ include['post'].title }}", '{% case include.post %}{% when site.posts.first %}!{% endcase %}', '{{ include.first[0] }}{{ include.post.title }}',
  "{% assign all = include.posts | where: 'title', 'Two' %}{{ all.size }}"
].freeze
OF_TEXTS = [
  '{{ page.who }}', '{{ page.who.size }}', '{{ page.who | size }}', "{% if page.who == 'Ada' %}!{% endif %}", '{% cycle page.who, 1 %}',
  "{% case page.who %}{% when 'Ada' %}!{% endcase %}", '{% for it in page.who limit: 0 %}{{ it }}{% endfor %}',
  "{% if page.who contains 'A' %}!{% endif %}",
  '{% for it in page.who offset: 1 %}{{ it }}{% endfor %}', '{% tablerow it in page.who %}{{ it }}{% endtablerow %}',
  '{% assign all = page.who | reverse %}{% for it in all %}{{ it }}{% endfor %}', '{% if page.who == page.title %}!{% endif %}'
].freeze
WHOLE = [
  '{% for it in site.posts.first %}{{ it }}{% endfor %}', '{% for it in site.posts.first %}!{% endfor %}', '{{ site.teas.first }}',
  '{{ site | size }}', '{% assign one = site.teas | first %}{% if one %}{{ one.title }}{% endif %}{{ one }}',
  '{% for it in site.teas %}{{ it.first[0] }}{% endfor %}', '{% for it in site.posts.first limit: 2 %}{{ it }}{% endfor %}',
  '{% for it in site.posts.first offset: 1 %}{{ it }}{% assign last = it %}{% endfor %}{{ last.title }}'
].freeze
AROUND = '{% assign all = page.rows | reverse %}{% for row in all %}{{ row.all }}{% endfor %}' \
         '{% for row in page.rows %}{% for it in row.all %}{{ it }}{% endfor %}{% endfor %}'

# The files of a site that has a page for each of these sources.
def files_of(pages)
  made = PARTS.transform_keys { |name| "_includes/#{name}" }
  OF_POSTS.each_with_index { |source, at| made["_includes/of#{at}.html"] = source }
  %w[_posts/2024-01-02-one _posts/2024-01-03-two].each { |name| made["#{name}.md"] = "---\ntitle: #{name[-3..].capitalize}\n---\n" }
  pages.each { |name, (who, source)| made[name] = "---\ntitle: It\nwho: #{who}\nrows: [{ all: Ada }, { all: [b, c] }, { all: '' }]\n---\n#{source}" }
  { **made, '_teas/one.md' => "---\ntitle: One\n---\n", '_data/teas.yml' => "Ada: { name: Assam }\n" }
end

own = ['Ada', "''", '[x, y]'].flat_map { |who| OWN.map { |source| [who, source] } }
others = [*WHOLE, AROUND, *OF_TEXTS.map { |source| "#{WHO}#{source}" },
          *OF_POSTS.each_index.map { |at| "#{POSTS}{% include of#{at}.html post=it posts=site.posts %}{% endfor %}" }]
pages = own.each_with_index.to_h { |page, at| ["own#{at}.html", page] }
# those without includes come first, as what is asked for is more once includes are there
others.each_with_index { |source, at| pages["other#{100 + at}.html"] = ['Ada', source] }
REFUSED = [] # rubocop:disable Style/MutableConstant
Jekyll.logger.define_singleton_method(:debug) { |topic, words = nil| REFUSED << words[/\A\w+\.html(?= is Liquid's)/] if topic == 'Bikleinu:' }
_, counts = Dir.mktmpdir { |room| built(room, { 'verify' => true }, files_of(pages)) }
same("pages that are Liquid's", pages.keys.grep(/\Aother/)) { REFUSED.compact.sort }
same('those that differ', 0) { counts[:differing] }

report
