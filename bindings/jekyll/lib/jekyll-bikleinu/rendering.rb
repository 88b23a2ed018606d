# frozen_string_literal: true

module JekyllBikleinu
  # In front of Jekyll's renderer of a file: what this engine can render it does, and all else stays Liquid's, which then parses it.
  module Rendering
    def parse(content)
      @content = content
      @template = nil
      self
    end

    def warnings
      @template ? super : []
    end

    def render(*args)
      parsed_by_liquid
      super
    end

    def render!(*args)
      payload, info = args
      engine = engine_for(payload, info)
      page = own_page(engine, payload, info) if engine
      return page if page && !engine.verify?

      parsed_by_liquid
      page ? compared(engine, page, super) : super
    end

    private

    # The engine for a page or a layout. Templates of plugins, and includes that Liquid renders, are Liquid's.
    def engine_for(payload, info)
      site = info.is_a?(Hash) && info.dig(:registers, :site)
      JekyllBikleinu.engine(site) if site && payload.is_a?(Liquid::Drop)
    end

    # Parses the source as Jekyll does, once it is needed.
    def parsed_by_liquid
      return if @template

      method(:parse).super_method.call(@content)
      @template.warnings.each { |it| Jekyll.logger.warn 'Liquid Warning:', Jekyll::LiquidRenderer.format_error(it, @filename) }
    end

    # The page of this engine, or nil.
    def own_page(engine, payload, info)
      made = measure_time { engine.page(@filename, @content, payload, info) }
      @renderer.increment_count(@filename)
      @renderer.increment_bytes(@filename, made.bytesize)
      engine.counts[:own] += 1
      made
    rescue Bikleinu::Error, Refused, EncodingError => e
      raise if engine.strict?

      engine.counts[:others] += 1
      Jekyll.logger.debug 'Bikleinu:', "#{@filename} is Liquid's: #{e.message}"
      nil
    end

    # Liquid's page, when it is compared: each difference is reported by its first line.
    def compared(engine, page, wanted)
      return wanted if page == wanted

      engine.counts[:differing] += 1
      own = page.lines
      others = wanted.lines
      at = (0..own.length).find { |line| own[line] != others[line] }
      Jekyll.logger.warn 'Bikleinu:', "#{@filename}: line #{at + 1} is #{own[at].inspect}, and by Liquid #{others[at].inspect}"
      wanted
    end
  end
end
