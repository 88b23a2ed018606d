# frozen_string_literal: true

module Bikleinu
  # Data that are read once and rendered by any number of templates: a Hash, or a text of JSON.
  class Data
    def initialize(data, decimals: nil, times: nil)
      @handle = Data.read(data, Conversions.new(decimals, times)).lend
    end

    # What is read of a Hash or of a text of JSON: no more than a plan, or paths, ask for.
    def self.read(data, conversions, plan = nil, paths = nil)
      return Fault.check(Handle.read(Text.utf8(data, 'JSON'), paths)) if data.is_a?(String)

      Fault.check(Handle.encoded(map(data, conversions, plan), plan, conversions))
    end

    # The key of what paths ask of a Hash or of a text of JSON.
    def self.key(data, conversions, plan, paths)
      return Fault.check(paths.seen_key(Text.utf8(data, 'JSON'))) if data.is_a?(String)
      raise TypeError, 'a key is of a Hash or of a text of JSON, not of Data' if data.is_a?(Data)

      Fault.check(paths.encoded_key(map(data, conversions, plan), plan, conversions))
    end

    def self.of(handle)
      made = allocate
      made.instance_variable_set(:@handle, handle.lend)
      made
    end

    # The data as a Hash: a drop is asked for what a plan says.
    def self.map(data, conversions, plan)
      made = data.instance_of?(Hash) ? data : conversions.convert(data, plan)
      return made if made.is_a?(Hash)

      raise DataError.new("a value of the class #{data.class}, and a Hash of names and values is wanted", number: 2)
    end
    private_class_method :map

    attr_reader :handle # :nodoc:

    def initialize_copy(_other)
      raise TypeError, 'Data can be shared, and are not copied'
    end
  end
end
