# frozen_string_literal: true

module JekyllBikleinu
  # Renders the pages of one site, and counts how many were rendered by which engine.
  class Engine
    # How deep includes may stand in one another, and blocks with them, and how often a page may ask its filters.
    LIMITS = { depth: 100, levels: 10_000, rounds: 1000 }.freeze
    # Filters that are no functions of their input.
    RANDOM = %w[sample].freeze
    # Those of Jekyll's that this engine has too, each proved to answer what its page says.
    PROVED = %w[
      relative_url absolute_url date_to_string date_to_long_string date_to_xmlschema date_to_rfc822 xml_escape cgi_escape uri_escape
      jsonify normalize_whitespace number_of_words to_integer array_to_sentence_string group_by where find
    ].freeze
    # Tags that are functions of their words and the site.
    OF_SITE = %w[link post_url].freeze
    # A rendering: which one it is, and what Jekyll gives it.
    Call = Struct.new(:number, :payload, :info)

    attr_reader :counts

    def initialize(site)
      @site = site
      @options = site.config['bikleinu'].is_a?(Hash) ? site.config['bikleinu'] : {}
      filters = @options['filters']
      raise ArgumentError, "bikleinu: filters is #{filters.inspect}, and proved or nothing is wanted" unless [nil, 'proved'].include?(filters)

      begin_build
    end

    # Forgets all that a build before this one knew.
    def begin_build
      @counts = Hash.new(0)
      @environment = nil
      @templates = {}
      @tags = {}
      @number = 0
      @renderings = {}
    end

    def strict?
      @options['strict']
    end

    def verify?
      @options['verify']
    end

    # Whether this engine answers Jekyll's filters itself, where it has them and no plugin has others of their names.
    def proved?
      @options['filters'] == 'proved'
    end

    # A source in this language.
    def source(text)
      (@source ||= Source.new).of(text)
    end

    # The page of a source, or a Refused or an Error that says why this engine makes none.
    def page(filename, content, payload, info)
      raise Refused, "strict_variables and strict_filters are Liquid's" if info[:strict_variables] || info[:strict_filters]

      template = template(filename, content)
      raise template if template.is_a?(Exception)

      rendering = Call.new(@number += 1, payload, info)
      @renderings[rendering.number] = rendering
      rendered(filename, template, Payload.new(payload, Source::NAME => rendering.number))
    ensure
      @renderings.delete(rendering.number) if rendering
    end

    # Says how many pages were rendered by which engine.
    def report
      own, others, differing = @counts.values_at(:own, :others, :differing)
      verified = verify? ? ", #{differing} other than by Liquid" : ''
      Jekyll.logger.info 'Bikleinu:', "#{own} renderings#{verified}, and #{others} by Liquid"
    end

    private

    # The template of a source, or the error that it is refused by. A file may have one source after the other.
    def template(filename, content)
      known = @templates[filename]
      return known[1] if known && known[0] == content

      @templates[filename] = [content, parsed(content)]
      @templates[filename][1]
    end

    # The page, by a near plan where the usual data don't do: then the file's further pages are made so too.
    def rendered(filename, template, payload)
      template.render!(payload)
    rescue Bikleinu::Error
      near_page(filename, template, payload) || raise
    end

    # The page by a near plan, or nil where the sources have none.
    def near_page(filename, template, payload)
      near = template.near
      near&.render!(payload)&.tap { @templates[filename][1] = near }
    rescue Bikleinu::SyntaxError, Refused
      nil
    end

    def parsed(content)
      environment.parse(source(content))
    rescue Bikleinu::Error, Refused, EncodingError => e
      e
    end

    def environment
      @environment ||= Bikleinu::Environment.new(
        jekyll: true, site: (place if proved?), partials: Includes.new(self, @site), missing: :nil, decimals: :text, times: true,
        host: Host.new, **LIMITS
      ).tap { |made| filters(made) && tags(made) }
    end

    # The address and the base path of the site.
    def place
      @site.config.values_at('url', 'baseurl').map(&:to_s)
    end

    # Filters of Jekyll's and of plugins are Ruby's own; those of Liquid are this engine's, unless a plugin has others of their names.
    def filters(environment)
      strainer = Liquid::StrainerFactory.create(SiteContext.new(@site))
      Liquid::StrainerFactory.global_filter_names.each do |name|
        next if RANDOM.include?(name) || engines?(name, strainer.method(name).owner)

        environment.filter(name) { |input, *arguments| strainer.invoke(name, input, *arguments) }
      end
    end

    # Whether a filter is this engine's own, by its name and the module that it stands in.
    def engines?(name, owner)
      owner == Liquid::StandardFilters || (proved? && PROVED.include?(name) && Jekyll::Filters.ancestors.include?(owner))
    end

    # Tags of Jekyll and of plugins are made by their own classes. Those of the site are functions of their words, and the others say
    # which rendering they are in.
    def tags(environment)
      OF_SITE.each do |name|
        environment.register_tag(name, style: :text) { |words = ''| of_site("{% #{name} #{words} %}") }
      end
      environment.filter(Source::FILTER) { |number, at| tag(number, at, nil) }
      environment.register_block(Source::BLOCK) { |text, number, at| tag(number, at, text) }
      environment.register_block('highlight', style: :text) { |_text, _words = ''| raise Refused, 'the words of a highlight have a brace' }
    end

    # The text of a tag over a page, or of a block round a text.
    def tag(number, at, text)
      rendering = @renderings.fetch(number)
      template = parsed_tag(@source.tags.fetch(at))
      template.instance_assigns.clear
      template.assigns[Source::BLOCK] = text
      template.render!(rendering.payload, rendering.info)
    end

    # The text of a tag that asks for the site alone.
    def of_site(text)
      parsed_tag(text).render!(SiteContext.new(@site))
    end

    def parsed_tag(text)
      @tags[text] ||= Liquid::Template.parse(text)
    end
  end

  # What Jekyll gives a page, with the number of its rendering.
  class Payload
    def initialize(payload, more)
      @payload = payload
      @more = more
    end

    def key?(name)
      @more.key?(name) || @payload.key?(name)
    end

    def [](name)
      @more.fetch(name) { @payload[name] }
    end
  end
end
