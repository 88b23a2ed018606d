# frozen_string_literal: true

module Bikleinu
  # Templates by name, for the tags include and render. They come from a Hash, from a folder, or from an object that has
  # read_template_file(name), as the file systems of Liquid: that is asked once for each name that a page comes to.
  class Partials
    UNKNOWN_PARTIAL = 11
    NAMED = /\Ano partial is named `(.+)`(?:;|\z)/m
    STATIC = /\{%-?\s*(?:include|render)\s+(?:'([^']+)'|"([^"]+)")/
    BARE = /\{%-?\s*include\s+([^\s'"{|%]+)/
    # How many partials a page may come to one after the other.
    MOST = 1_000
    private_constant :UNKNOWN_PARTIAL, :NAMED, :STATIC, :BARE, :MOST

    # Partials as they are between two changes: renderings have them as they were.
    State = Struct.new(:handle, :sources)

    # A handle of these sources, each as the template that a block makes of it and of its name.
    def self.handle_of(sources)
      handle = Fault.check(Handle.partials)
      sources.each do |name, source|
        number = handle.insert(name, yield(name, source))
        raise Error.new('a partial is not taken', number:) unless number.zero?
      end
      handle.lend
    end

    def initialize(given, environment)
      @environment = environment
      @files = given if given.respond_to?(:read_template_file)
      @refused = {}
      @lock = Mutex.new
      @state = state_of(sources_of(given))
    end

    # The handle and the sources of the partials as they are.
    attr_reader :state

    # The source of the partial of this name, or a KeyError.
    def source(name)
      @state.sources.fetch(name) do
        load_all([name])
        @state.sources.fetch(name) { raise KeyError.new("no partial is named #{name.inspect}", key: name, receiver: self) }
      end
    end

    # Puts a source at a name, for the renderings from now on.
    def []=(name, source)
      name = Text.utf8(name, "a partial's name")
      @lock.synchronize { @state = state_of(@state.sources.merge(name => source)) }
    end

    # A source as a block writes it, and those of a state that it then leads to, written so too, by their names.
    def reached(source, state)
      first = yield(source)
      found = {}
      names = static_names(first)
      while (name = names.shift)
        next if found.key?(name) || !state.sources.key?(name)

        found[name] = yield(state.sources[name])
        names.concat(static_names(found[name]))
      end
      [first, found]
    end

    # The partials with those that a source and they name, as far as they can be read.
    def reach(source)
      load_all(static_names(source)) if @files
      @state
    end

    # Nil where a page that ended by a fault may be another one now, since the partial that it lacked was read, and else the fault.
    # What kept the partial from being read is the fault's cause; where the language refuses its source, that error is raised.
    def read_for(fault, source, round)
      name = @files && fault.number == UNKNOWN_PARTIAL && fault.reason[NAMED, 1]
      return fault unless name && round < MOST
      return load_all([name, *static_names(source)]) && nil if !@state.sources.key?(name) && !@refused.key?(name)

      why = @refused[name]
      raise why if why.is_a?(Error)

      why ? Fault.caused(fault, why) : fault
    end

    private

    def sources_of(given)
      return {} if given.nil? || @files
      return given.transform_keys { |name| Text.utf8(name.to_s, "a partial's name") } if given.is_a?(Hash)
      unless given.is_a?(String) || given.respond_to?(:to_path)
        raise TypeError, "partials are a Hash, the path of a folder or have read_template_file, not a value of the class #{given.class}"
      end

      folder = Folder.new(given.respond_to?(:to_path) ? given.to_path : given)
      folder.sources.tap { folder.left_out.each { |line| Kernel.warn(line) } }
    end

    def state_of(sources)
      State.new(Partials.handle_of(sources) { |name, source| @environment.parsed(source, name) }, sources.freeze).freeze
    end

    # Reads the sources of these names, and of those that they name, and takes them.
    def load_all(names)
      @lock.synchronize do
        found = {}
        names = [*names]
        while (name = names.shift)
          next if @state.sources.key?(name) || found.key?(name) || @refused.key?(name)

          source = read(name)
          found[name] = source if source
          names.concat(static_names(source)) if source
        end
        @state = state_of(@state.sources.merge(found)) unless found.empty?
      end
    end

    # The source of this name, or nil. One that the language refuses is kept from pages that don't come to it.
    def read(name)
      return unless @files

      source = Text.utf8(@files.read_template_file(name), "the partial #{name.inspect}")
      @environment.parsed(source, name).release
      source
    rescue StandardError => e
      @refused[name] = e
      nil
    end

    # The names that stand in tags of a source.
    def static_names(source)
      names = source.scan(STATIC).flatten.compact
      @environment.jekyll? ? names + source.scan(BARE).flatten : names
    end
  end
  private_constant :Partials
end
