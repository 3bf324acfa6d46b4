--  Objects of a pool begin with the value of another one, and are adjusted (RM 4.8, 7.6).
with Ada.Finalization; use Ada.Finalization;
with Ada.Text_IO;      use Ada.Text_IO;
with Block_Pools;      use Block_Pools;

procedure Copied is
   type T is new Controlled with record
      N : Integer := 0;
   end record;

   overriding procedure Adjust (X : in out T);
   overriding procedure Finalize (X : in out T);

   procedure Adjust (X : in out T) is
   begin
      X.N := X.N + 10;
   end Adjust;

   procedure Finalize (X : in out T) is
   begin
      Put_Line ("F" & Integer'Image (X.N));
   end Finalize;
begin
   declare
      P : Block_Pool (16, 2);

      type Ref is access T with Storage_Pool => P;

      A, B : Ref;
   begin
      A := new T;
      A.N := 1;
      B := new T'(A.all);
      Put_Line (Integer'Image (A.N) & Integer'Image (B.N));
      A := new T'(B.all);
   exception
      when Storage_Error =>
         Put_Line ("SE");
   end;
end Copied;
