--  Allocators with the value of a part whose name begins with a call or with a conversion: the call is executed first,
--  then the new object takes its number and is adjusted. Where the call gives null nothing is allocated, and the use of
--  an object that was freed stops the run (RM 4.1, 4.6, 4.8, 7.6, 13.11.2).
with Ada.Finalization; use Ada.Finalization;
with Ada.Text_IO;      use Ada.Text_IO;
with Ada.Unchecked_Deallocation;

procedure Allocated is
   type T is new Controlled with record
      N : Integer := 1;
   end record;

   overriding procedure Adjust (X : in out T);
   overriding procedure Finalize (X : in out T);

   type Box is record
      Inside : T;
   end record;

   type Ref is access T;
   type View is access all T;
   type Box_Ref is access Box;

   procedure Free is new Ada.Unchecked_Deallocation (T, Ref);

   A, B, C : Ref;
   D       : Box_Ref;

   procedure Adjust (X : in out T) is
   begin
      X.N := X.N + 10;
   end Adjust;

   procedure Finalize (X : in out T) is
   begin
      null;
   end Finalize;

   function Find (K : Integer) return Ref is
   begin
      Put_Line ("find" & Integer'Image (K));
      if K = 1 then
         return A;
      elsif K = 2 then
         return B;
      end if;
      return null;
   end Find;

   function Open (K : Integer) return Box_Ref is
   begin
      Put_Line ("open");
      D.Inside.N := K;
      return D;
   end Open;
begin
   A := new T;
   D := new Box;
   B := new T'(Find (1).all);
   C := new T'(Open (4).Inside);
   Put_Line (Integer'Image (B.N) & Integer'Image (C.N));
   C := new T'(View (B).all);
   Put_Line (Integer'Image (C.N));
   begin
      C := new T'(Find (0).all);
   exception
      when Constraint_Error =>
         Put_Line ("null");
   end;
   C := B;
   Free (C);
   C := new T'(Find (2).all);
end Allocated;
