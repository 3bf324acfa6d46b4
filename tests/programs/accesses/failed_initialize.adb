--  An object whose Initialize raises in its allocator is gone, and no member of the collection (RM 4.8, 7.6.1).
with Ada.Finalization; use Ada.Finalization;
with Ada.Text_IO;      use Ada.Text_IO;

procedure Failed_Initialize is
   type T is new Limited_Controlled with record
      N : Integer := 0;
   end record;

   overriding procedure Initialize (X : in out T);
   overriding procedure Finalize (X : in out T);

   Calls : Integer := 0;

   type Ref is access T;

   A, B : Ref;

   procedure Initialize (X : in out T) is
   begin
      Calls := Calls + 1;
      X.N := Calls;
      if Calls = 2 then
         raise Constraint_Error;
      end if;
   end Initialize;

   procedure Finalize (X : in out T) is
   begin
      Put_Line ("F" & Integer'Image (X.N));
   end Finalize;
begin
   A := new T;
   begin
      B := new T;
   exception
      when Constraint_Error =>
         Put_Line (Boolean'Image (B = null));
   end;
   B := new T;
end Failed_Initialize;
