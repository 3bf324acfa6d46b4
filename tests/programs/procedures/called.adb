--  Procedures without parameters: they call themselves, their objects go as each is left, and an exception goes on
--  (RM 6.4, 7.6.1, 11.4).
with Ada.Finalization; use Ada.Finalization;
with Ada.Text_IO;      use Ada.Text_IO;

procedure Called is
   Depth : Integer := 0;

   type A is new Limited_Controlled with record
      N : Integer := 0;
   end record;

   overriding procedure Finalize (X : in out A);

   procedure Finalize (X : in out A) is
   begin
      Put_Line ("f" & Integer'Image (X.N));
   end Finalize;

   procedure Step is
      V : A;
   begin
      Depth := Depth + 1;
      V.N := Depth;
      if Depth < 3 then
         Step;
      end if;
      Put_Line (Integer'Image (V.N));
   end Step;

   procedure Fail is
      W : A;
   begin
      raise Constraint_Error;
   end Fail;
begin
   for I in 1 .. 2 loop
      Step;
      Depth := I;
   end loop;
   Fail;
   Put_Line ("never");
end Called;
