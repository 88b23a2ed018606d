# frozen_string_literal: true

module JekyllBikleinu
  # The files of a site's includes, as partials.
  class Includes
    def initialize(engine, site)
      @engine = engine
      @site = site
    end

    # The source of the include of this name, or an IOError.
    def read_template_file(name)
      raise IOError, "`#{name}` is no name of an include" if name.match?(%r{[./]{2,}}) || !name.match?(%r{\A[\w/.\-()+~#@]+\z})

      path = @site.includes_load_paths.map { |folder| File.join(folder, name) }.find { |it| there?(it) }
      raise IOError, "no include is named `#{name}`" unless path

      @engine.source(File.read(path, **@site.file_read_opts))
    end

    private

    def there?(path)
      return File.file?(path) unless @site.safe

      File.file?(path) && @site.includes_load_paths.any? { |folder| File.realpath(path).start_with?("#{File.realpath(folder)}/") }
    end
  end
end
