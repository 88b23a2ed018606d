# frozen_string_literal: true

module JekyllBikleinu
  # Why a page is Liquid's: the language, or what Jekyll's own code asks for, goes beyond what this engine has.
  class Refused < StandardError; end

  # The context of a filter of Jekyll's or of a plugin, whose answers serve all pages of a build: it has the site, and refuses to say
  # anything of a page.
  class SiteContext < Liquid::Context
    # Registers that have the site, and what a filter puts there itself.
    class SiteRegisters < Liquid::Registers
      def [](key)
        raise Refused, 'a filter asks for the page' if key == :page

        super
      end
    end

    def initialize(site)
      super({}, {}, SiteRegisters.new(site:))
    end

    def find_variable(key, raise_on_not_found: true)
      raise Refused, "a filter asks for `#{key}`" unless @scopes.any? { |scope| scope.key?(key) }

      super
    end
  end
end
