# frozen_string_literal: true

module Bikleinu
  # What a template shows: the text up to the fault, and the fault that the run ended by, or nil.
  class Page
    # Runs that weren't begun: one that could reach too many levels, and one that asks more of data than was read of them.
    NOT_BEGUN = [103, 116].freeze
    private_constant :NOT_BEGUN

    attr_reader :text, :fault

    def initialize(text, fault = nil)
      @text = text
      @fault = fault
      freeze
    end

    def self.of(made)
      fault = Fault.of(made) unless made.number.zero?
      new(NOT_BEGUN.include?(made.number) ? '' : made.text(Fault::TEXT), fault)
    ensure
      made.release
    end
  end

  # A template, which is rendered any number of times, in any number of threads.
  class Template
    # The template of a source, in an environment, or by itself. A SyntaxError says what the language refuses.
    #
    # line_numbers: and error_mode: are Liquid's: each fault has its line, and the language is strict.
    def self.parse(source, environment: Environment.default, line_numbers: true, error_mode: :strict)
      raise ::ArgumentError, "error_mode is #{error_mode.inspect}, and the language is :strict" unless error_mode == :strict

      environment.parse(source)
    end

    # Makes filters of the public methods of a module, for templates that are parsed from now on without an environment.
    def self.register_filter(methods)
      Environment.default.register_filter(methods)
    end

    # Registers a tag, for templates that are parsed from now on without an environment (as Environment#register_tag).
    def self.register_tag(...)
      Environment.default.register_tag(...)
    end

    # Registers a block in the same way.
    def self.register_block(...)
      Environment.default.register_block(...)
    end

    # What it was parsed from.
    attr_reader :source
    # The faults of the last call of render or render!.
    attr_reader :errors

    def initialize(source, environment, is_near: false)
      @source = Text.utf8(source, 'a source').dup.freeze
      @environment = environment
      @is_near = is_near
      @handle = environment.parsed(@source).lend
      @errors = []
    end

    # The page's text. Where the run ended by a fault it stands at the end of it, as in Liquid, and in errors.
    def render(data = nil, options = nil)
      page = page(data, options)
      @errors = [page.fault].compact
      page.fault ? "#{page.text}Liquid error: #{page.fault.message}" : page.text
    end

    # The page's text, or the fault that the run ended by is raised.
    def render!(data = nil, options = nil)
      page = page(data, options)
      @errors = [page.fault].compact
      raise page.fault if page.fault

      page.text
    end

    # The page: its text up to a fault, and the fault.
    #
    # Data are a Hash, a drop, Data or a text of JSON, of which a Hash or a drop are asked for what the template and its partials
    # use. Options are depth:, levels:, bytes:, turns:, rounds: and missing:, as of an Environment, and Liquid's strict_variables: and
    # strict_filters:.
    def page(data = nil, options = nil)
      settings = @environment.settings.with(options)
      (0..).each do |round|
        partials = @environment.partials.state
        page = rendered(data, partials, settings)
        return page unless page.fault

        fault = @environment.partials.read_for(page.fault, @source, round)
        return fault.equal?(page.fault) ? page : Page.new(page.text, fault) if fault
      end
    end

    # The names that the template and its partials mention: a page depends on no other names of the data.
    def names
      JSON.parse(Fault.check(@handle.names(@environment.partials.state.handle)).text(Fault::TEXT))
    end

    # What the template and its partials use of their data, as "products[].title".
    def paths
      texts_of(found(@environment.partials.reach(@source))[1])
    end

    # A key of what this template and its partials see of data, a Hash or a text of JSON: pages over data of one key are the same. So
    # it, or a digest of it, is an ETag, or drops equal jobs of a queue.
    def seen_key(data)
      _, paths, plan = found(@environment.partials.reach(@source))
      [paths, @environment.known].compact.map do |asked|
        Data.key(data, @environment.settings.conversions, plan, asked).text(Fault::TEXT)
      end.join("\n")
    end

    # Data of which no more is read than this template and its partials use.
    def data(data)
      _, paths, plan = found(@environment.partials.reach(@source))
      conversions = @environment.settings.conversions
      paths = nil if @environment.known
      Data.of(data.is_a?(String) ? Data.read(data, conversions, nil, paths) : Data.read(data, conversions, plan))
    end

    # The same template with a near plan, or nil where there is none, or it has one. # :nodoc:
    def near
      Template.new(@source, @environment, is_near: true) if @environment.near_plans && !@is_near
    end

    def initialize_copy(_other)
      raise TypeError, 'a Template can be shared, and is not copied'
    end

    private

    def rendered(data, partials, settings)
      ready = ready(data, settings, partials)
      filters = @environment.filters
      return Page.of(@handle.render(ready, partials.handle, nil, settings.depth, settings.limits)) if filters.empty?

      Run.new(filters, settings).page(ready) do |answers|
        @handle.render(ready, partials.handle, answers, settings.depth, settings.limits)
      end
    ensure
      ready&.release unless data.is_a?(Data)
    end

    # The handle of the data, or nil for none.
    def ready(data, settings, partials)
      case data
      when nil then nil
      when Data then data.handle
      when String then Data.read(data, settings.conversions)
      else Data.read(data, settings.conversions, found(partials)[2])
      end
    end

    # The paths with these partials, and the plan of them, which are kept for the next page.
    def found(partials)
      known = @found
      return known if known && known[0].equal?(partials)

      paths = Fault.check(@handle.paths(partials.handle)).lend
      @found = [partials, paths, plan(texts_of(paths) | texts_of(@environment.known), partials)].freeze
    end

    # The paths behind a handle, or none.
    def texts_of(paths)
      paths ? JSON.parse(paths.text(Fault::TEXT)) : []
    end

    def plan(paths, partials)
      @is_near ? @environment.near_plans.of(paths, @source, partials) : Plan.of(paths)
    end
  end
end
