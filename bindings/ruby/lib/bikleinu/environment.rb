# frozen_string_literal: true

module Bikleinu
  # What templates share: partials, filters, limits, and what becomes of values that JSON doesn't have.
  #
  #   environment = Bikleinu::Environment.new(partials: { 'end' => 'yours, B.' }, decimals: :text)
  #   environment.filter('money') { |cents, currency = 'EUR'| format('%.2f %s', cents / 100.0, currency) }
  #   environment.parse("{{ 1999 | money }}, {% render 'end' %}").render
  #
  # partials: is a Hash of sources, the path of a folder, or an object that has read_template_file(name). filters: is a Hash of
  # functions, a module, or a set that the library has itself, :decimals, :jekyll or :shopify, with the language of that set; what its
  # filters know of a site or a shop is what the data of each page have. missing: is :fault or :nil. escape: true escapes for HTML
  # what outputs and cycle write, but not an output that ends with `| raw`. jekyll: takes the include, the highlight and the sort of
  # Jekyll, and drops the white space of blocks that write nothing. site: is the address and the base path of a site of Jekyll's, as
  # ['https://example.org', '/blog']: the library then has Jekyll's own filters over it, but for those that filters: names. depth:
  # says how many partials may stand in one another, levels: how many blocks and partials; bytes: and turns: bound a page, and rounds:
  # how often it may ask its filters. decimals: :text makes texts of floats, and times: true, or an offset, of times and dates.
  #
  # The partials are parsed with the first template, so they know the filters that were added until then.
  class Environment
    # How what stands after the name of a tag is read, by the numbers of the library for C.
    STYLES = { items: 0, path: 1, text: 2 }.freeze
    # The sets of filters that the library has itself, by its numbers for C.
    SETS = { decimals: 1, jekyll: 2, shopify: 3 }.freeze
    # What such filters know of the data of a page, as a template that shows it.
    KNOWN = {
      jekyll: '{{ site.url }}{{ site.baseurl }}',
      shopify: '{{ shop.money_format }}{{ shop.money_with_currency_format }}{{ collection.handle }}{{ current_tags }}'
    }.freeze
    private_constant :STYLES, :SETS, :KNOWN

    # The environment of templates that are parsed without one.
    def self.default
      check_ractor
      @default ||= new
    end

    # Refuses a Ractor, in which no object of this library can be.
    def self.check_ractor
      return unless defined?(::Ractor) && ::Ractor.current != ::Ractor.main

      raise ::Ractor::UnsafeError, 'Bikleinu works in the main Ractor alone: send the data to it'
    end
    private_class_method :check_ractor

    attr_reader :settings, :filters, :near_plans, :known # :nodoc:

    # A host is an object of the plugin for Jekyll, which says what is known of its documents and its sources.
    def initialize(partials: nil, filters: nil, jekyll: false, site: nil, escape: false, decimals: nil, times: nil, host: nil, **options)
      @settings = Settings.new(Conversions.new(decimals, times, host ? host.documents : []), **options)
      @near_plans = NearPlans.new(self, host) if host
      set = set_of(filters)
      @jekyll = jekyll || set == :jekyll ? true : false
      @language = Fault.check(set ? Handle.set_language(SETS[set]) : Handle.language(@jekyll))
      @known = Fault.check(@language.parse(KNOWN[set])).paths(nil).lend if KNOWN.key?(set)
      @filters = Filters.new(site_of(site), set && SETS[set])
      escape_html if escape
      @given = partials
      @lock = Monitor.new
      return if set

      filters.is_a?(Module) ? register_filter(filters) : filters&.each { |name, function| filter(name, function) }
    end

    # Adds a filter, in place of any other of that name, for what is parsed from now on: a block, or what answers to call.
    #
    # It gets the input and then the arguments, as JSON has them, and returns what JSON has. It is to be a function of these alone:
    # it is called before the page is rendered, perhaps for a call that the page doesn't come to, and its answer is kept for
    # further pages. What it raises ends a page that makes the call, as the cause of the fault.
    def filter(name, function = nil, &block)
      name = name_of(name, 'filter')
      add(name, function_of("the filter `#{name}`", function || block))
      self
    end

    # Registers a tag, in place of any other of that name that was registered, for what is parsed from now on, by a function as of
    # filter, but without an input: `{% name a, b %}` writes what it returns for the values a and b.
    #
    # With style: :items there are commas between values, or none; with :path the first one is a path without quotes, and with :text
    # all that stands there is one text, and no value where nothing does. given: is a Hash of values that the function gets too, as
    # { title: 'page.title' }: its keyword title: is what the page's data have there, or nil. A name is refused that is no word, that
    # blocks have a use of (as else, and what begins with end), or that is a tag or a block of the language.
    def register_tag(name, function = nil, style: :items, given: nil, &block)
      add_tag(:register_tag, name, function || block, style, given)
    end

    # Registers a block in the same way, which ends with `end` and its name. Its function gets the text of the body, and then the
    # values.
    def register_block(name, function = nil, style: :items, given: nil, &block)
      add_tag(:register_block, name, function || block, style, given)
    end

    # Makes filters of the public methods of a module.
    def register_filter(methods)
      raise TypeError, "filters are a Module, not a value of the class #{methods.class}" unless methods.instance_of?(Module)

      object = Object.new.extend(methods)
      methods.public_instance_methods.sort.each { |name| add(name.to_s, object.method(name)) }
      self
    end

    # The template of a source. A SyntaxError says what the language refuses.
    def parse(source)
      partials
      Template.new(source, self)
    end

    # The partial of this name, as a template, or a KeyError.
    def template(name)
      parse(partials.source(name))
    end

    # Puts a partial at a name, for the renderings from now on.
    def insert(name, source)
      partials[name] = source
      self
    end

    # Data that are read once, by the conversions of this environment, for any number of its templates.
    def data(data)
      Data.of(Data.read(data, @settings.conversions))
    end

    def jekyll?
      @jekyll
    end

    # The handle of the template of a source, which is that of a partial of this name. # :nodoc:
    def parsed(source, partial = nil)
      Fault.check(@language.parse(Text.utf8(source, partial ? "the partial #{partial.inspect}" : 'a source')), partial)
    end

    def partials # :nodoc:
      @partials || @lock.synchronize { @partials ||= Partials.new(@given, self) }
    end

    private

    # The set that filters: names, or nil where it is none.
    def set_of(filters)
      return unless filters.is_a?(Symbol) || filters.is_a?(String)

      SETS.key(SETS[filters.to_sym]) || raise(::ArgumentError, "filters: is #{filters.inspect}, and :decimals, :jekyll or :shopify is wanted")
    end

    # The address and the base path of a site, whose filters the language then has.
    def site_of(site)
      return if site.nil?
      raise TypeError, "site: is #{site.inspect}, and an address and a base path are wanted" unless site.is_a?(Array) && site.length == 2

      number = @language.register_jekyll
      raise Error.new("Jekyll's filters are not taken", number:) unless number.zero?

      site.map { |text| Text.utf8(text, 'a part of site:').dup.freeze }.freeze
    end

    def escape_html
      number = @language.escape_html
      raise Error.new('the language escapes nothing', number:) unless number.zero?
    end

    def add(name, function)
      least, most = Filters.arity("the filter `#{name}`", function)
      number = @language.register(name, least, most)
      raise Error.new("the filter `#{name}` is not taken", number:) unless number.zero?

      @filters.add(name, function)
    end

    def add_tag(how, name, function, style, given)
      name = name_of(name, 'tag')
      number = STYLES.fetch(style) { raise ::ArgumentError, "style: is #{style.inspect}, and :items, :path or :text is wanted" }
      what = "the tag `#{name}`"
      function = function_of(what, function)
      given = GivenValues.new(given || {})
      has_input = how == :register_block
      counts = Filters.arity(what, function, inputs: has_input ? 1 : 0, keys: given.keys)
      settle(name, how, number, counts.map { |it| it + given.count }, given.text)
      @filters.add(Filters.of_tag(name), given.passed_to(function, inputs: has_input ? 0 : 1))
      self
    end

    # Registers a tag or a block in the language, with its filter and its given values.
    def settle(name, how, style, counts, given)
      filter = Filters.of_tag(name)
      number = @language.register(filter, *counts)
      number = @language.public_send(how, name, filter, style, given) if number.zero?
      raise Error.new(Fault.refusal(number) || "the tag `#{name}` is not taken", number:) unless number.zero?
    end

    def name_of(name, what)
      Text.utf8(name.is_a?(Symbol) ? name.to_s : name, "a #{what}'s name")
    end

    # A function, which is what answers to call.
    def function_of(what, function)
      raise ::ArgumentError, "#{what} has no function" if function.nil?
      raise TypeError, "#{what} is a value of the class #{function.class}" unless function.respond_to?(:call)

      function.is_a?(Proc) || function.is_a?(Method) ? function : function.method(:call)
    end
  end
end
