--  A default names what is seen around its type, wherever the object is created; an heir in a deeper block evaluates
--  what it inherits as its parent does (RM 3.4, 3.8, 8.3).
with Ada.Finalization; use Ada.Finalization;
with Ada.Text_IO;      use Ada.Text_IO;

procedure Scopes is
   Base : Integer := 5;

   type T is new Controlled with record
      N : Integer := Base + 1;
   end record;

   procedure Outer is
      Local : Integer := 100;

      function Doubled return Integer;

      type R is record
         N : Integer := Local + Base;
         M : Integer := Doubled;
      end record;

      type Ref is access R;

      Last : Ref;

      function Doubled return Integer is
      begin
         return 2 * Local;
      end Doubled;

      procedure Deep (Depth : in Integer) is
         Local : Integer := Depth;
      begin
         if Local = 0 then
            Last := new R;
         else
            Deep (Depth - 1);
         end if;
      end Deep;
   begin
      Deep (2);
      Put_Line (Integer'Image (Last.N) & Integer'Image (Last.M));
      Local := 200;
      Deep (1);
      Put_Line (Integer'Image (Last.N) & Integer'Image (Last.M));
   end Outer;
begin
   Outer;
   declare
      K : Integer := 7;

      type U is new T with record
         M : Integer := K * Base;
      end record;

      X : U;
   begin
      Base := 6;
      Put_Line (Integer'Image (X.N) & Integer'Image (X.M));
      declare
         Y : U;
      begin
         Put_Line (Integer'Image (Y.N) & Integer'Image (Y.M));
      end;
   end;
end Scopes;
